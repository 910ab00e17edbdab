//! A child module of explain.rs: it may read the private state, and changes nothing.
use super::{ColumnType, CursorDataType, QueryState, RegDataType, TableDataType};
use crate::connection::intmap::{IntMap, Size};
use crate::logger::StateView;
use std::any::Any;

impl Size for ColumnType {
    fn cells(&self) -> usize {
        match self {
            ColumnType::Single { .. } => 1,
            ColumnType::Record(columns) => 1 + cells(columns),
        }
    }
    fn depth(&self) -> usize {
        match self {
            ColumnType::Single { .. } => 0,
            ColumnType::Record(columns) => 1 + depth(columns),
        }
    }
}

impl Size for RegDataType {
    fn cells(&self) -> usize {
        match self {
            RegDataType::Single(column) => column.cells(),
            RegDataType::Int(_) => 1,
        }
    }
    fn depth(&self) -> usize {
        match self {
            RegDataType::Single(column) => column.depth(),
            RegDataType::Int(_) => 0,
        }
    }
}

impl Size for CursorDataType {
    fn cells(&self) -> usize {
        1
    }
    fn depth(&self) -> usize {
        0
    }
}

impl Size for TableDataType {
    fn cells(&self) -> usize {
        1 + cells(&self.cols)
    }
    /// A table is no nesting level.
    fn depth(&self) -> usize {
        depth(&self.cols)
    }
}

fn cells<V: Size>(map: &IntMap<V>) -> usize {
    map.values().map(Size::cells).sum()
}

fn depth<V: Size>(map: &IntMap<V>) -> usize {
    map.values().map(Size::depth).max().unwrap_or(0)
}

impl StateView for QueryState {
    fn row(&self) -> usize {
        self.mem.program_i
    }
    fn times_handled(&self, row: usize) -> u8 {
        self.visited[row]
    }
    fn cells(&self) -> usize {
        cells(&self.mem.r) + cells(&self.mem.p) + cells(&self.mem.t)
    }
    fn slots(&self) -> usize {
        self.mem.r.slots() + self.mem.p.slots() + self.mem.t.slots()
    }
    fn cells_after_insert(&self, cursor: i64, register: i64) -> usize {
        let good = |i: i64| (0..=65_535).contains(&i);
        if !good(cursor) || !good(register) {
            return 0;
        }
        match (self.mem.r.peek(register), self.mem.p.peek(cursor)) {
            (Some(RegDataType::Single(ColumnType::Record(record))), Some(CursorDataType::Normal(table))) => {
                let old = self.mem.t.peek(*table).map_or(0, |t| cells(&t.cols));
                StateView::cells(self) - old + cells(record)
            }
            _ => 0,
        }
    }
}

/// Kind and blank of each column of a result row.
pub(crate) fn result_columns(columns: &dyn Any) -> Vec<(String, Option<bool>)> {
    let columns: &IntMap<ColumnType> = columns.downcast_ref().expect("a result row is a map of columns");
    columns.values().map(|c| (format!("{:?}", c.map_to_datatype()), c.map_to_nullable())).collect()
}
