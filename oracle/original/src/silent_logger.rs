//! Stub of the original's `logger` that does nothing, as the original's does when plans are not logged.
pub(crate) use crate::branch_result::{BranchParent, BranchResult, DebugDiff};
use std::fmt::Debug;
use std::marker::PhantomData;

pub struct QueryPlanLogger<'q, R: 'static, S, P> {
    nothing: PhantomData<(&'q P, R, S)>,
}

impl<'q, R: Debug, S, P> QueryPlanLogger<'q, R, S, P> {
    pub(crate) fn new(_sql: &'q str, _program: &'q [P]) -> Self {
        Self { nothing: PhantomData }
    }
    pub(crate) fn add_branch<I>(&mut self, _state: I, _parent: &BranchParent) {}
    pub(crate) fn add_operation<I>(&mut self, _row: usize, _state: I) {}
    pub(crate) fn add_result<I>(&mut self, _state: I, _result: BranchResult<R>) {}
    pub(crate) fn add_unknown_operation(&mut self, _row: usize) {}
}
