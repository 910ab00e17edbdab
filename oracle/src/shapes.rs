//! Shapes of random listings: which operations, and what stands before and behind them.
use crate::generate::{operand, random_row, row, Record, Row};
use crate::operations::{named, Operation, Role};
use crate::random::Random;

#[derive(Clone, Copy, PartialEq, Debug)]
pub enum Shape {
    Any,
    Flow,
    Coroutines,
    Countdown,
    Tables,
    Values,
    Aggregates,
    Nested,
    Deep,
    Wide,
    Report,
    Edges,
    Branching,
    Long,
    Large,
}

pub fn draw(r: &mut Random) -> Shape {
    match r.below(800) {
        0..=1 => return Shape::Large,
        2..=3 => return Shape::Long,
        _ => {}
    }
    r.pick(&[
        Shape::Any, Shape::Any, Shape::Any, Shape::Flow, Shape::Flow, Shape::Coroutines, Shape::Coroutines, Shape::Countdown, Shape::Tables,
        Shape::Tables, Shape::Values, Shape::Values, Shape::Aggregates, Shape::Nested, Shape::Nested, Shape::Deep, Shape::Wide, Shape::Wide,
        Shape::Report, Shape::Report, Shape::Edges, Shape::Edges, Shape::Edges, Shape::Branching,
    ])
}

/// Whether the search over all steps of such a listing is likely to be short.
pub fn searchable(shape: Shape) -> bool {
    !matches!(shape, Shape::Wide | Shape::Branching | Shape::Long | Shape::Large | Shape::Edges)
}

const FLOW: &[&str] = &[
    "Gosub", "Return", "Return", "Goto", "If", "If", "IfPos", "Eq", "Next", "Once", "Integer", "Integer", "ResultRow", "Jump",
    "IsNull", "NotNull", "Null", "MustBeInt", "Yield", "InitCoroutine", "EndCoroutine", "FkIfZero", "Halt",
];
const COROUTINES: &[&str] = &[
    "InitCoroutine", "Yield", "Yield", "Yield", "EndCoroutine", "EndCoroutine", "Gosub", "Return", "Goto", "ResultRow", "Integer",
    "Eq", "String8", "Null",
];
const COUNTDOWN: &[&str] = &[
    "IfPos", "IfPos", "IfPos", "Goto", "Goto", "Integer", "Integer", "Eq", "ResultRow", "If", "Jump", "Copy", "Return",
];
const TABLES: &[&str] = &[
    "OpenEphemeral", "OpenAutoindex", "SorterOpen", "OpenRead", "OpenRead", "OpenWrite", "OpenPseudo", "OpenDup", "Column",
    "Column", "RowData", "SorterData", "MakeRecord", "Insert", "Insert", "IdxInsert", "SorterInsert", "Delete", "NullRow",
    "Rewind", "Sort", "Last", "SorterSort", "Integer", "String8", "Null", "ResultRow", "ResultRow", "Next", "Cast", "HaltIfNull",
];
const VALUES: &[&str] = &[
    "Integer", "Null", "String8", "Real", "Blob", "Variable", "Copy", "Copy", "Move", "Move", "SCopy", "IntCopy", "Not", "Add",
    "And", "Or", "Concat", "Cast", "Function", "HaltIfNull", "IsNull", "NotNull", "ResultRow", "ResultRow", "Eq", "If",
    "OffsetLimit", "Sequence", "Column", "OpenRead", "Rowid",
];
const AGGREGATES: &[&str] = &[
    "Column", "Column", "AggStep", "AggStep", "AggValue", "AggFinal", "AggFinal", "ResultRow", "ResultRow", "Eq", "Null",
    "NullRow", "HaltIfNull", "NotNull", "Cast", "Integer", "MakeRecord",
];
const NESTED: &[&str] = &[
    "MakeRecord", "MakeRecord", "MakeRecord", "RowData", "Insert", "OpenPseudo", "OpenEphemeral", "Column", "Column", "Copy",
    "Move", "SCopy", "Eq", "ResultRow", "Goto", "Integer", "NullRow", "Cast", "IsNull", "NotNull", "AggStep", "Rewind", "Return",
    "OpenDup",
];
const DEEP: &[&str] = &[
    "MakeRecord", "MakeRecord", "RowData", "Insert", "OpenPseudo", "OpenEphemeral", "Column", "Copy", "Move", "Eq", "SCopy",
    "AggStep", "Jump",
];
const WIDE: &[&str] = &[
    "MakeRecord", "MakeRecord", "RowData", "Insert", "OpenPseudo", "OpenEphemeral", "OpenRead", "OpenDup", "Column", "Copy",
    "Move", "Move", "Eq", "If", "Integer", "Null", "SCopy", "Gosub", "InitCoroutine", "IsNull", "NotNull", "Cast", "Return",
    "EndCoroutine", "Yield", "AggStep", "ResultRow", "Function", "Variable", "Add",
];

/// The operations of a shape; none where any will do.
pub fn pool(shape: Shape) -> &'static [&'static str] {
    match shape {
        Shape::Flow => FLOW,
        Shape::Coroutines => COROUTINES,
        Shape::Countdown => COUNTDOWN,
        Shape::Tables => TABLES,
        Shape::Values => VALUES,
        Shape::Aggregates => AGGREGATES,
        Shape::Nested => NESTED,
        Shape::Deep => DEEP,
        Shape::Wide => WIDE,
        _ => &[],
    }
}

const FILLING: &[&str] = &[
    "Integer", "Integer", "Null", "String8", "Real", "MakeRecord", "MakeRecord", "Variable", "Function", "Column", "OpenEphemeral", "OpenRead",
    "OpenPseudo", "OpenDup", "Insert", "InitCoroutine",
];

/// Straight rows that leave something in registers and cursors.
fn filling(r: &mut Random) -> Vec<Row> {
    let count = r.below(7);
    (0..count)
        .map(|_| {
            let operation = named(r.pick(FILLING));
            let mut made = random_row(r, operation, 8, 0, 0);
            if made.op == "InitCoroutine" {
                made.p[1] = 0;
            }
            made
        })
        .collect()
}

/// Rows that leave a state of 460 to 512 cells.
fn nearly_full(r: &mut Random) -> Vec<Row> {
    let room = r.within(460, 513);
    match r.below(6) {
        0 => vec![row("Null", 0, 100, 99 + room)],
        1 => vec![row("OpenEphemeral", 0, room - 2, 0)],
        2 => vec![row("MakeRecord", 9, (room - 2) / 2, 1), row("SCopy", 1, 2, 0)],
        3 => vec![row("MakeRecord", 9, room - 1, 1)],
        4 => vec![row("MakeRecord", 9, room / 2 - 2, 1), row("OpenEphemeral", 0, room / 2 - 2, 0), row("Insert", 0, 1, 0)],
        _ => vec![row("Null", 0, 7, 6 + room / 2), row("MakeRecord", 7, room / 2 - 1, 1)],
    }
}

pub fn before(r: &mut Random, shape: Shape) -> Vec<Row> {
    let mut rows = if r.chance(70) { filling(r) } else { Vec::new() };
    match shape {
        Shape::Coroutines if r.chance(80) => rows = vec![row("InitCoroutine", 1, 0, r.within(1, 8))],
        Shape::Countdown => rows.push(row("Integer", r.within(-1, 4), r.within(0, 3), 0)),
        Shape::Aggregates => rows.splice(0..0, [row("OpenRead", 0, 1, 0), row("OpenRead", 1, 2, 0)]).for_each(drop),
        Shape::Nested => {
            let cursor = r.within(0, 2);
            rows.extend([row("MakeRecord", 0, 2, 1), row("MakeRecord", 1, 2, 2), row("OpenPseudo", cursor, r.within(1, 2), 0)]);
        }
        Shape::Deep => rows.extend(vec![row("MakeRecord", 1, 1, 1); r.within(4, 8) as usize]),
        Shape::Wide => rows.extend(nearly_full(r)),
        _ => {}
    }
    rows
}

pub fn behind(r: &mut Random, shape: Shape, rows: &mut Vec<Row>, first: usize) {
    let (low, high) = (first as i64, rows.len() as i64);
    if shape == Shape::Coroutines && r.chance(50) {
        rows.push(row(r.pick(&["Yield", "EndCoroutine"]), 1, r.within(low, high), 0));
    } else if r.chance(25) {
        let back = r.pick(&["Goto", "Next", "Eq", "IfPos", "Jump", "If"]);
        rows.push(row(back, r.within(low, high), r.within(low, high), r.within(low, high)));
    }
    shown(r, rows);
}

/// A last result row, so that what the rows have left in registers and cursors is seen.
fn shown(r: &mut Random, rows: &mut Vec<Row>) {
    if r.chance(45) {
        rows.extend((0..3).map(|cursor| row("Column", cursor, r.within(0, 2), 7 + cursor)));
        rows.extend([row("ResultRow", 0, 10, 0), row("Halt", 0, 0, 0)]);
    } else if r.chance(60) {
        rows.extend([row("ResultRow", 0, 7, 0), row("Halt", 0, 0, 0)]);
    }
}

/// What the operation at the edges finds.
const STATES: &[&[(&str, i64, i64, i64)]] = &[
    &[],
    &[("Integer", 3, 1, 0)],
    &[("Integer", 0, 1, 0)],
    &[("Integer", -5, 1, 0)],
    &[("Null", 0, 1, 2)],
    &[("String8", 0, 1, 0)],
    &[("Column", 9, 0, 1)],
    &[("MakeRecord", 4, 2, 1)],
    &[("Integer", 3, 1, 0), ("OpenEphemeral", 1, 2, 0)],
    &[("Null", 0, 1, 0), ("OpenEphemeral", 1, 2, 0)],
    &[("MakeRecord", 4, 2, 1), ("OpenEphemeral", 1, 2, 0)],
    &[("MakeRecord", 4, 2, 1), ("OpenPseudo", 1, 1, 0)],
    &[("Null", 0, 1, 0), ("OpenPseudo", 1, 1, 0)],
    &[("Integer", 3, 1, 0), ("OpenPseudo", 1, 65_536, 0)],
    &[("MakeRecord", 4, 2, 1), ("OpenPseudo", 1, -1, 0)],
    &[("OpenRead", 1, 1, 0), ("String8", 0, 1, 0)],
    &[("Null", 0, 0, 509), ("OpenPseudo", 1, 1, 0)],
    &[("MakeRecord", 4, 508, 1), ("OpenPseudo", 1, 1, 0)],
];

/// One operation with operands at the edges, behind a few rows that leave something to work on.
pub fn edges(r: &mut Random, all: &[Operation], far: &[i64]) -> Vec<Row> {
    let mut rows: Vec<Row> = r.pick(STATES).iter().map(|s| row(s.0, s.1, s.2, s.3)).collect();
    let operation = r.pick(all);
    let mut made = random_row(r, operation, 4, 0, 20);
    for value in &mut made.p {
        match r.below(3) {
            0 => *value = r.pick(far),
            1 => *value = r.within(0, 2),
            _ => {}
        }
    }
    rows.push(made);
    shown(r, &mut rows);
    rows
}

/// Many ways with different registers: the space for remembering, or the gas, gives out.
pub fn branching(r: &mut Random) -> Vec<Row> {
    let either: &[&str] = &["Eq", "Once", "Found", "SeekGE", "VNext", "IfSmaller", "IncrVacuum", "IsNullOrType", "IfNotOpen", "SeekScan", "RowSetTest"];
    let parts = if r.chance(2) { r.within(14, 18) } else { r.within(2, 9) };
    let mut rows = Vec::new();
    for i in 0..parts {
        let (at, register) = (rows.len() as i64, r.within(0, 20));
        match r.below(7) {
            0..=2 => rows.extend([row(r.pick(either), 0, at + 2, 0), row("Integer", i, register, 0)]),
            3 => rows.push(row("If", register, at + 1, 0)),
            4 => rows.extend([row("Jump", at + 1, at + 2, at + 3), row("String8", 0, register, 0), row("Null", 0, register, register + 1)]),
            5 => rows.extend([row("IfPos", register, at + 2, 0), row("MakeRecord", register, 2, register + 1)]),
            _ => rows.extend([row("Eq", 0, at + 2, 0), row("ResultRow", register, 3, 0)]),
        }
    }
    let back = r.within(0, 3);
    rows.extend([row("ResultRow", 0, r.within(1, 24), 0), row(r.pick(&["Goto", "Eq", "Halt"]), 0, back, 0)]);
    rows
}

/// Few ways, and so many rows behind them that the gas is nearly spent, or spent.
pub fn long(r: &mut Random) -> Vec<Row> {
    let ways = r.within(6, 8);
    let mut rows: Vec<Row> = (0..ways).flat_map(|i| [row("Eq", 0, 2 * i + 2, 0), row("Integer", i, i, 0)]).collect();
    let count = 100_000 / (1 << ways) + r.within(-20, 60);
    rows.extend((0..count).map(|i| row(if i % 7 == 0 { "Noop" } else { "String8" }, 0, 10 + i % 5, 0)));
    rows.extend([row("ResultRow", 0, 12, 0), row("Halt", 0, 0, 0)]);
    rows
}

/// A listing as SQLite writes them: a table that is read in a loop, with a test or two and a result row.
pub fn report(r: &mut Random) -> Vec<Row> {
    let width = r.within(1, 5);
    let mut rows = vec![row("Init", 0, 1, 0), row(r.pick(&["OpenRead", "OpenEphemeral", "OpenWrite"]), 0, r.within(1, 4), 0)];
    let head = rows.len();
    rows.push(row(r.pick(&["Rewind", "Last", "Sort", "SorterSort"]), 0, 0, 0));
    let top = rows.len() as i64;
    for i in 0..width {
        rows.push(row("Column", 0, i, 1 + i));
        let tested = r.within(1, width);
        match r.below(6) {
            0 => rows.push(row(r.pick(&["IsNull", "NotNull", "Eq", "Ne", "If", "IfPos"]), tested, rows.len() as i64 + 2, 0)),
            1 => rows.push(row("NullRow", 0, 0, 0)),
            2 => rows.push(row(r.pick(&["Cast", "HaltIfNull", "SCopy", "Function"]), tested, operand(r, Role::Register, 6, 0), tested)),
            _ => {}
        }
    }
    if r.chance(60) {
        rows.extend(aggregate(r, width));
    }
    rows.push(row("ResultRow", 1, width + 1, 0));
    rows.push(row(r.pick(&["Next", "SorterNext", "Prev", "VNext"]), 0, top, 0));
    let end = rows.len() as i64;
    rows[head].p[1] = end;
    rows.push(row("Halt", 0, 0, 0));
    rows
}

/// An aggregate of one of the columns, into the register behind them.
fn aggregate(r: &mut Random, width: i64) -> Vec<Row> {
    let step = r.pick(&["AggStep", "AggStep", "AggValue"]);
    let mut rows = vec![random_row(r, named(step), 6, 0, 2)];
    rows[0].p = [0, r.within(1, width), width + 1];
    if r.chance(50) {
        let mut last = random_row(r, named("AggFinal"), 6, 0, 2);
        last.p = [width + 1, r.within(0, width), width + 1];
        rows.push(last);
    }
    rows
}

/// At the limits of rows and records.
pub fn large(r: &mut Random) -> Vec<Row> {
    let count = r.pick(&[2_047, 2_048, 2_048, 2_049, 2_050, 700]);
    let mut rows = vec![row("Noop", 0, 0, 0); count];
    rows[0] = row("OpenRead", 0, 7, 0);
    rows[1] = row("Column", 0, 2, 1);
    rows[count - 2] = row("ResultRow", 1, 1, 0);
    let far = r.below(count);
    rows[count - 1] = row(r.pick(&["Eq", "Goto", "Halt"]), 0, far as i64, 0);
    rows
}

pub fn many_records(r: &mut Random) -> Vec<Record> {
    let count = r.pick(&[0, 4_095, 4_096, 4_096, 4_097]);
    let record = |i: i64| Record { db: i % 2, page: i / 16 % 40, col: i % 8, declared: "INTEGER", notnull: i % 3 == 0 };
    (0..count).map(record).collect()
}
