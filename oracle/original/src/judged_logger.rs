//! Stub of the original's `logger` that sees each dispatch, each offered branch and each end of a branch, and
//! tells the judge.
pub(crate) use crate::branch_result::{BranchParent, BranchResult, DebugDiff};
use crate::connection::explain::peek::result_columns;
use crate::connection::ProgramRow;
use crate::judge;
use std::any::Any;
use std::fmt::Debug;
use std::marker::PhantomData;

/// What is read of a state; src/peek.rs has it for the original's.
pub(crate) trait StateView {
    fn row(&self) -> usize;
    fn times_handled(&self, row: usize) -> u8;
    fn cells(&self) -> usize;
    /// Slots of the state's maps, absent entries too.
    fn slots(&self) -> usize;
    /// Cells after an Insert by this cursor of this register, 0 where it stores nothing.
    fn cells_after_insert(&self, cursor: i64, register: i64) -> usize;
}

/// A row of the listing, where the type parameter is known to be one.
pub(crate) trait AsRow {
    fn row(&self) -> &ProgramRow;
}

impl AsRow for ProgramRow {
    fn row(&self) -> &ProgramRow {
        self
    }
}

pub struct QueryPlanLogger<'q, R: 'static, S, P> {
    program: &'q [P],
    nothing: PhantomData<(R, S)>,
}

impl<'q, R: Debug, S, P> QueryPlanLogger<'q, R, S, P> {
    pub(crate) fn new(_sql: &'q str, program: &'q [P]) -> Self {
        judge::walk();
        Self { program, nothing: PhantomData }
    }

    /// A branch is offered. Where it is dropped, a result `Dedup` follows at once.
    pub(crate) fn add_branch<I: StateView>(&mut self, state: &I, _parent: &BranchParent) {
        judge::ask(self.program.len(), state.cells(), state.slots());
    }

    /// A dispatch, before gas and handled counts are looked at.
    pub(crate) fn add_operation<I: StateView>(&mut self, row: usize, state: &I)
    where
        P: AsRow,
    {
        judge::begin(state.cells());
        let program_row = self.program[row].row();
        let again = program_row.1 == "IfPos";
        if judge::with(|j| j.dispatch(row, state.times_handled(row), again)) {
            judge::before_accesses(program_row, || state.cells_after_insert(program_row.2, program_row.3));
        }
    }

    pub(crate) fn add_result<I: StateView>(&mut self, state: I, result: BranchResult<R>) {
        if let BranchResult::Dedup(_) = &result {
            return judge::drop_asked();
        }
        judge::settle();
        match &result {
            BranchResult::GasLimit => judge::with(|j| j.gasstops += 1),
            BranchResult::LoopLimit => judge::with(|j| j.loopstops += 1),
            BranchResult::Result(columns) => count(state.row(), columns),
            _ => {}
        }
    }

    pub(crate) fn add_unknown_operation(&mut self, row: usize) {
        judge::with(|j| j.ignored[row] = true);
    }
}

fn count(row: usize, columns: &dyn Any) {
    if judge::with(|j| j.keep_rows) {
        let columns = result_columns(columns);
        judge::with(|j| j.counted.insert((row, columns)));
    }
}
