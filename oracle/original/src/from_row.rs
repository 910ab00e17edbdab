//! Stub of the original's `from_row`: a row of either query as the tuple that explain.rs asks for.
use crate::connection::execute::Row;
use crate::connection::{ProgramRow, SchemaRow};
use crate::error::Error;

pub trait FromRow<R>: Sized {
    fn from_row(row: &R) -> Result<Self, Error>;
}

impl FromRow<Row<'_>> for ProgramRow {
    fn from_row(row: &Row) -> Result<Self, Error> {
        match row {
            Row::Program(r) => Ok((*r).clone()),
            Row::Schema(_) => Err(Error("a row of the schema query".into())),
        }
    }
}

impl FromRow<Row<'_>> for SchemaRow {
    fn from_row(row: &Row) -> Result<Self, Error> {
        match row {
            Row::Schema(r) => Ok((*r).clone()),
            Row::Program(_) => Err(Error("a row of the listing".into())),
        }
    }
}
