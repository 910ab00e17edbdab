//! Listings of one shape in growing sizes.
use crate::case::{made, records, Case, Row};

/// A straight listing of so many rows.
pub fn rows(n: usize) -> Case {
    let mut rows: Vec<Row> = (0..n as i64 - 2).map(|i| ("Integer", i, i % 16, 0)).collect();
    rows.extend([("ResultRow", 0, 16, 0), ("Halt", 0, 0, 0)]);
    made(n.to_string(), &rows, Vec::new())
}

/// 200 branching rows on a state of so many cells.
pub fn cells(n: usize) -> Case {
    let mut rows: Vec<Row> = vec![("Null", 0, 1, n as i64)];
    rows.extend((1..=200).map(|i| ("Eq", 0, i + 2, 0)));
    rows.extend([("ResultRow", 1, n as i64, 0), ("Halt", 0, 0, 0)]);
    made(n.to_string(), &rows, Vec::new())
}

/// Eight tables opened and read, among so many records.
pub fn catalogue(n: usize) -> Case {
    let pages = (n / 8) as i64;
    let mut rows: Vec<Row> = (0..8).map(|i| ("OpenRead", i, (i + 1) * pages / 8, 0)).collect();
    rows.extend((0..64).map(|i| ("Column", i / 8, i % 8, i)));
    rows.extend([("ResultRow", 0, 64, 0), ("Halt", 0, 0, 0)]);
    made(n.to_string(), &rows, records(n))
}
