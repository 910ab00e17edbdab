//! A listing with its catalogue, as texts.
use std::path::Path;
use std::{fs, io};

pub struct Case {
    pub name: String,
    pub listing: Vec<u8>,
    pub catalogue: Vec<u8>,
}

/// Operation and its three operands; P4 is empty in all that is made here.
pub type Row = (&'static str, i64, i64, i64);

pub fn made(name: impl Into<String>, rows: &[Row], catalogue: Vec<u8>) -> Case {
    let mut listing = Vec::new();
    for (addr, (op, p1, p2, p3)) in rows.iter().enumerate() {
        listing.extend(format!("addr={addr}\nop={op}\np1={p1}\np2={p2}\np3={p3}\np4=\n").bytes());
    }
    Case { name: name.into(), listing, catalogue }
}

/// `count` records, eight columns to a page, pages from 1.
pub fn records(count: usize) -> Vec<u8> {
    let types = ["INTEGER", "TEXT", "REAL", "BLOB", "BOOLEAN", "DATETIME", "VARCHAR(255)", "NUMERIC"];
    let record = |i: usize| format!("db=0\npage={}\ncol={}\ntype={}\nnotnull={}\n", i / 8 + 1, i % 8, types[i % 8], i % 2);
    (0..count).flat_map(|i| record(i).into_bytes()).collect()
}

/// How many listings a folder has, and at most `limit` of them, spread evenly over their names.
pub fn folder(dir: &Path, limit: usize) -> io::Result<(usize, Vec<Case>)> {
    let paths = original::folder::listings(dir)?;
    let (all, kept) = (paths.len(), limit.min(paths.len()));
    let cases: io::Result<Vec<Case>> = (0..kept).map(|i| read(&paths[i * all / kept])).collect();
    Ok((all, cases?))
}

/// NAME.listing with its NAME.catalog; a missing catalogue is empty.
fn read(path: &Path) -> io::Result<Case> {
    let name = path.file_stem().unwrap_or_default().to_string_lossy().into_owned();
    let catalogue = fs::read(path.with_extension("catalog")).unwrap_or_default();
    Ok(Case { name, listing: fs::read(path)?, catalogue })
}
