//! Random small listings with their catalogues.
use crate::operations::{arms, named, Operation, Role, WITHOUT_ARM};
use crate::random::Random;
use crate::shapes::{self, Shape};

#[derive(Clone)]
pub struct Row {
    pub op: &'static str,
    pub p: [i64; 3],
    pub p4: Vec<u8>,
}

pub fn row(op: &'static str, p1: i64, p2: i64, p3: i64) -> Row {
    Row { op, p: [p1, p2, p3], p4: Vec::new() }
}

pub struct Record {
    pub db: i64,
    pub page: i64,
    pub col: i64,
    pub declared: &'static str,
    pub notnull: bool,
}

pub struct Listing {
    pub shape: Shape,
    pub rows: Vec<Row>,
    pub records: Vec<Record>,
}

const EDGES: &[i64] = &[
    -1, -1, -2, 65_534, 65_535, 65_536, 65_537, 70_000, 2_147_483_647, -2_147_483_648, 510, 511, 512, 513, 2_000, 2_001, 255, 256, 100,
];
const FUNCTIONS: &[&[u8]] = &[
    b"last_insert_rowid(0)", b"date(-1)", b"time(-1)", b"datetime(-1)", b"strftime(-1)", b"julianday(-1)", b"unixepoch(-1)",
    b"", b"abs(1)", b"date(-1", b"date(-1)x", b"Date(-1)", b"last_insert_rowid(1)", b"unixepoch(-2)", b"caf\xc3\xa9(1)",
];
const AGGREGATES: &[&[u8]] = &[
    b"count(1)", b"count(", b"count", b"row_number(0)", b"rank(0)", b"dense_rank(0)", b"ntile(1)", b"ntile", b"percent_rank(0)",
    b"percent_rank", b"cume_dist(0)", b"cume_dist", b"cume_distance", b"cume_dis", b"sum(1)", b"sum(", b"sum", b"sum(1)", b"sum(2)", b"lead(1)",
    b"lag(3)", b"lag", b"max(1)", b"min(1)", b"total(1)", b"", b"\xe2\x82\xac(1)", b" count(1)", b"COUNT(1)",
];
const NOT_UTF8: &[&[u8]] = &[
    b"\xff", b"\x80", b"a\xbf", b"\xc0\x80", b"\xc1\xbf", b"\xc3", b"\xe0\x9f\x80", b"\xed\xa0\x80", b"\xf0\x8f\xbf\xbf", b"\xf4\x90\x80\x80",
    b"\xf5\x80\x80\x80", b"count(\x80)", b"date(-1)\xe2\x82", b"sum(1)\xf0\x9f\x98",
];
const UTF8_EDGES: &[&[u8]] = &[
    b"\x00", b"\x7f", b"\xc2\x80", b"\xdf\xbf", b"\xe0\xa0\x80", b"\xed\x9f\xbf", b"\xee\x80\x80", b"\xf0\x90\x80\x80", b"\xf4\x8f\xbf\xbf",
    b"count(\xc3\xa9)",
];
const TYPES: &[&str] = &[
    "INTEGER", "INT", "int4", "INT8", "BIGINT", "TEXT", "VARCHAR(40)", "CLOB", "BLOB", "REAL", "FLOAT", "DOUBLE PRECISION", "FLOATING POINT",
    "BOOLEAN", "bool", "DATE", "time", "DATETIME", "TIMESTAMP", "NUMERIC", "DECIMAL(10,5)", "STRING", "", "BLOBINT", "chartext",
    "0123456789012345678901234567890123456789012345678901234567890123", "~ ",
];

/// One operand, drawn so that it is likely to name something that another row names.
pub fn operand(r: &mut Random, role: Role, rows: usize, wild: usize) -> i64 {
    if wild > 0 && r.chance(wild) {
        return r.pick(EDGES);
    }
    let n = rows as i64;
    match role {
        Role::Register => r.pick(&[0, 1, 1, 2, 2, 3, 3, 4, 5, 6]),
        Role::Cursor => r.pick(&[0, 0, 1, 1, 2, 3]),
        Role::Target => if r.chance(12) { r.within(-1, n + 1) } else { r.within(0, n) },
        Role::Count => r.pick(&[0, 1, 1, 2, 2, 3, 4]),
        Role::Number => if r.chance(15) { r.within(0, n) } else { r.pick(&[0, 1, 1, 2, 3, -1]) },
        Role::Column => r.pick(&[0, 0, 1, 1, 2, 3]),
        Role::Flag => r.pick(&[0, 0, 1, 1, 2]),
        Role::Database => r.pick(&[0, 0, 0, 1, 1, 2, -1]),
        Role::Page => r.pick(&[1, 1, 2, 2, 3, 4]),
        Role::Span => r.pick(&[0, 0, 1, 1, 2, 3, -1]),
        Role::Affinity => r.pick(&[64, 65, 66, 67, 68, 69, 70, 193, 196, 321, 323, -189, -187, -61, 0]),
        Role::Unused => r.pick(&[0, 0, 0, 1, 2]),
    }
}

fn p4(r: &mut Random, op: &str, bad: usize) -> Vec<u8> {
    let aggregate = op.starts_with("Agg");
    if aggregate || op == "Function" {
        if r.chance(bad) {
            return r.pick(NOT_UTF8).to_vec();
        }
        if r.chance(4) {
            return r.pick(UTF8_EDGES).to_vec();
        }
        return r.pick(if aggregate { AGGREGATES } else { FUNCTIONS }).to_vec();
    }
    match r.below(60) {
        0 => r.pick(NOT_UTF8).to_vec(),
        1 => vec![b'x'; r.pick(&[1, 254, 255])],
        _ => Vec::new(),
    }
}

pub fn random_row(r: &mut Random, (op, roles): Operation, rows: usize, wild: usize, bad: usize) -> Row {
    let p = roles.map(|role| operand(r, role, rows, wild));
    Row { op, p, p4: p4(r, op, bad) }
}

/// An operation of the shape, any other now and then.
fn operation(r: &mut Random, shape: Shape, all: &[Operation]) -> Operation {
    let pool = shapes::pool(shape);
    if !pool.is_empty() && r.chance(92) {
        return named(r.pick(pool));
    }
    if r.chance(6) {
        return r.pick(WITHOUT_ARM);
    }
    r.pick(all)
}

fn records(r: &mut Random, shape: Shape) -> Vec<Record> {
    let read = matches!(shape, Shape::Report | Shape::Aggregates | Shape::Tables);
    let count = r.pick(if read { &[6, 12, 24, 40] } else { &[0, 0, 3, 6] });
    let far = r.chance(2);
    let record = |r: &mut Random| Record {
        db: r.pick(&[0, 0, 0, 1]),
        page: if far && r.chance(20) { r.pick(&[0, 2_147_483_647]) } else { r.pick(&[1, 1, 2, 3]) },
        col: if far && r.chance(20) { r.pick(&[65_535, 600]) } else { r.pick(&[0, 1, 2, 3, 3, 5]) },
        declared: r.pick(TYPES),
        notnull: r.chance(50),
    };
    (0..count).map(|_| record(r)).collect()
}

/// Rows that fill registers and cursors first, then rows of the shape. Targets name the same rows wherever those begin.
fn body(r: &mut Random, shape: Shape, all: &[Operation]) -> Vec<Row> {
    let mut rows = shapes::before(r, shape);
    let count = if r.chance(85) { r.within(1, 12) } else { r.within(13, 36) } as usize;
    let wild = r.pick(&[0, 0, 0, 1, 3]);
    let bad = r.pick(&[0, 0, 5, 15]);
    let first = rows.len() as i64;
    for _ in 0..count {
        let operation = operation(r, shape, all);
        let mut made = random_row(r, operation, count, wild, bad);
        for (value, role) in made.p.iter_mut().zip(operation.1) {
            let inside = (-1..=count as i64 + 1).contains(value);
            *value += if role == Role::Target && inside && !r.chance(3) { first } else { 0 };
        }
        rows.push(made);
    }
    shapes::behind(r, shape, &mut rows, first as usize);
    rows
}

pub fn listing(r: &mut Random) -> Listing {
    let shape = shapes::draw(r);
    let all = arms();
    let rows = match shape {
        Shape::Edges => shapes::edges(r, &all, EDGES),
        Shape::Branching => shapes::branching(r),
        Shape::Report => shapes::report(r),
        Shape::Long => shapes::long(r),
        Shape::Large => shapes::large(r),
        _ => body(r, shape, &all),
    };
    let records = if shape == Shape::Large { shapes::many_records(r) } else { records(r, shape) };
    Listing { shape, rows, records }
}

impl Listing {
    pub fn text(&self) -> Vec<u8> {
        let mut out = String::new();
        for (addr, row) in self.rows.iter().enumerate() {
            let [p1, p2, p3] = row.p;
            out += &format!("addr={addr}\nop={}\np1={p1}\np2={p2}\np3={p3}\np4=", row.op);
            for byte in &row.p4 {
                out += &format!("{byte:02x}");
            }
            out += "\n";
        }
        out.into_bytes()
    }

    pub fn catalogue(&self) -> Vec<u8> {
        let line = |r: &Record| {
            format!("db={}\npage={}\ncol={}\ntype={}\nnotnull={}\n", r.db, r.page, r.col, r.declared, u8::from(r.notnull))
        };
        self.records.iter().map(line).collect::<String>().into_bytes()
    }
}
