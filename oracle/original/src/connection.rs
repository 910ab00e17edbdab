//! Stub of the original's `connection`: the rows of both queries are given instead of asked of SQLite.
use crate::error::Error;
use crate::SqliteTypeInfo;

include!(concat!(env!("OUT_DIR"), "/connection.rs"));

/// addr, opcode, p1, p2, p3, p4.
pub type ProgramRow = (i64, String, i64, i64, i64, Vec<u8>);
/// db, page, column, declared type, not null.
pub type SchemaRow = (i64, i64, i64, String, bool);

#[derive(Default)]
pub struct ConnectionState {
    pub program: Vec<ProgramRow>,
    pub schema: Vec<SchemaRow>,
}

pub mod execute {
    use super::{ConnectionState, ProgramRow, SchemaRow};
    use crate::error::Error;
    use sqlx_core::sql_str::SqlSafeStr;
    use sqlx_core::Either;

    pub enum Row<'a> {
        Program(&'a ProgramRow),
        Schema(&'a SchemaRow),
    }

    type Item<'a> = Result<Either<(), Row<'a>>, Error>;

    /// The rows of the query, and what stands for its end.
    pub(crate) fn iter<'a>(
        conn: &'a mut ConnectionState,
        query: impl SqlSafeStr,
        _arguments: Option<()>,
        _persistent: bool,
    ) -> Result<impl Iterator<Item = Item<'a>>, Error> {
        let listing = query.text().starts_with("EXPLAIN ");
        let program = if listing { &conn.program[..] } else { &[] };
        let schema = if listing { &[] } else { &conn.schema[..] };
        let rows = program.iter().map(Row::Program).chain(schema.iter().map(Row::Schema));
        Ok(rows.map(|r| Ok(Either::Right(r))).chain(std::iter::once(Ok(Either::Left(())))))
    }
}

pub type Columns = (Vec<SqliteTypeInfo>, Vec<Option<bool>>);

/// The original, from its two queries to its merged result rows.
pub fn explain(conn: &mut ConnectionState) -> Result<Columns, Error> {
    explain::explain(conn, "")
}
