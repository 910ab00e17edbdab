//! The types of the original's `logger` that it makes values of, for both stubs of it.
use std::fmt::Debug;

#[derive(Debug)]
#[allow(dead_code)]
pub(crate) enum BranchResult<R: Debug + 'static> {
    Result(R),
    Dedup(BranchParent),
    Halt,
    Error,
    GasLimit,
    LoopLimit,
    Branched,
}

#[derive(Debug, Clone, Copy)]
#[allow(dead_code)]
pub(crate) struct BranchParent {
    pub id: i64,
    pub idx: i64,
}

#[allow(dead_code)]
pub(crate) trait DebugDiff {
    fn diff(&self, prev: &Self) -> String;
}
