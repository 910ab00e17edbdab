//! Listings made to be slow: they spend the gas, fill the area, or make a row costly.
use crate::case::{made, records, Case, Row};

/// `n` times two ways that meet again with another register set: 2^n ways in all.
fn diamonds(n: i64, first: i64, from: i64) -> Vec<Row> {
    (0..n).flat_map(|i| [("Eq", 0, from + 2 * i + 2, 0), ("Integer", i, first + i, 0)]).collect()
}

fn with(parts: &[&[Row]]) -> Vec<Row> {
    parts.concat()
}

fn case(name: &str, rows: Vec<Row>) -> Case {
    made(name, &rows, Vec::new())
}

/// `count` rows behind 2^n ways, so that each row is handled for each way.
fn behind(n: i64, before: &[Row], rows: impl Fn(i64) -> Row, count: i64) -> Vec<Row> {
    let from = before.len() as i64;
    let many: Vec<Row> = (0..count).map(rows).collect();
    with(&[before, &diamonds(n, 500, from), &many, &[("Halt", 0, 0, 0)]])
}

fn states() -> Vec<Case> {
    let ends: [Row; 2] = [("ResultRow", 0, 20, 0), ("Halt", 0, 0, 0)];
    let ifs: Vec<Row> = (0..14).map(|i| ("If", i, i + 1, 0)).collect();
    let three: Vec<Row> = (0..16)
        .flat_map(|i| [("Jump", 3 * i + 1, 3 * i + 2, 3 * i + 3), ("Integer", i, i, 0), ("Null", 0, i, 0)])
        .collect();
    let outside: Vec<Row> =
        (0..8).flat_map(|i| [("Jump", 2 * i + 1, 2 * i + 2, 9_999 + i), ("Integer", i, i, 0)]).collect();
    let loops: Vec<Row> = (0..8).map(|i| ("If", i, i + 1, 1)).collect();
    vec![
        case("14 Ifs", with(&[&ifs, &[("ResultRow", 0, 14, 0)]])),
        case("17 diamonds", with(&[&diamonds(17, 0, 0), &ends])),
        case("16 times three ways", with(&[&three, &[("Goto", 0, 0, 0)]])),
        case("three new states a row", with(&[&outside, &[("If", 9, 0, 0), ("Goto", 0, 0, 0)]])),
        case("8,000 states of one hash", one_hash(0)),
        case("the same with different hashes", one_hash(1)),
        case("a loop of Ifs", with(&[&loops, &diamonds(8, 0, 8), &[("Goto", 0, 0, 0)]])),
    ]
}

/// The port's hash of a state (crates/branches/specs/Hash.antt): a word goes in.
fn stir(s: u64) -> u64 {
    (s & 0xffff_ffff) * 4_294_967_291 + (s >> 32)
}

/// And so that the sum's halves are multiplied.
fn fold(h: u64, x: u64) -> u64 {
    let s = h.wrapping_add(x);
    s.wrapping_add((s & 0xffff_ffff) * (s >> 32))
}

/// The hash behind a register's head and its known number, and before its number.
fn headed(h: u64, register: u64) -> u64 {
    fold(h, 3 + ((65_536 + register) << 24))
}

fn numbered(h: u64, number: i64) -> u64 {
    stir(h.wrapping_add((1 << 63) ^ number as u64))
}

/// Numbers for two registers, so many pairs, that all lead from the hash h to one hash, which is given too. Where the first number changes by d,
/// what is then folded changes by a parabola in d; near its vertex by so little that the second number makes up for it.
fn pairs(h: u64, register: u64, many: i64) -> (Vec<(i64, i64)>, u64) {
    let after = |x: i64| headed(numbered(headed(h, register), x), register + 1);
    let slope = |x: i64| after(x + 1).wrapping_sub(after(x)) as i64;
    let vertex = |from: i64| {
        let near = (0..6).fold(from, |x, _| (x + slope(x) / 10).clamp(-2_000_000_000, 2_000_000_000));
        (slope(near).abs() <= 10).then_some(near)
    };
    let top = (-15..16).find_map(|i| vertex(i << 27)).expect("a parabola has a vertex within the numbers");
    let second = |x: i64| after(top).wrapping_sub(after(x)) as i64;
    let found = (top - many / 2..top - many / 2 + many).map(|x| (x, second(x))).collect();
    (found, numbered(after(top), 0))
}

/// 8,000 states at one row, each offered 15 times: of one hash, or, with the second numbers one larger, of different ones.
fn one_hash(off: i64) -> Vec<Row> {
    let mut rows: Vec<Row> = Vec::new();
    let (ways, length) = (20, 4);
    let end = 3 * ways * length + 5;
    let mut hash = numbered(0, end);
    for group in 0..3 {
        let join = (group + 1) * ways * length;
        let (numbers, next) = pairs(hash, 2 * group as u64, ways);
        hash = next;
        for (way, (first, second)) in numbers.into_iter().enumerate() {
            let other = rows.len() as i64 + length;
            rows.push(("Eq", 0, other.min(join - 1), 0));
            rows.push(("Integer", first, 2 * group, 0));
            rows.push(("Integer", second + off * way as i64, 2 * group + 1, 0));
            rows.push(("Goto", 0, join, 0));
        }
    }
    rows.extend([("Jump", end, end, end); 5]);
    rows.push(("Halt", 0, 0, 0));
    rows
}

fn wide() -> Vec<Case> {
    let result: [Row; 2] = [("ResultRow", 0, 2_000, 0), ("Halt", 0, 0, 0)];
    let full: [Row; 1] = [("Null", 0, 0, 490)];
    vec![
        case("490 registers, 10 diamonds", with(&[&full, &diamonds(10, 0, 1)])),
        case("a result of 2,000 columns", with(&[&diamonds(16, 0, 0), &result])),
        case("512 cells, all dropped", behind(6, &[("Null", 0, 0, 505)], |_| ("Jump", 1_500, 1_500, 1_500), 1_487)),
        case("register 65,535, 5 diamonds", with(&[&[("Null", 0, 65_535, 0)], &diamonds(5, 0, 1)])),
    ]
}

fn rows() -> Vec<Case> {
    let few = |i: i64| if i % 3 == 0 { ("Integer", i % 3, i % 5, 0) } else { ("Jump", 0, 1, 2) };
    vec![
        case("2,048 rows of Jump 0 0 0", vec![("Jump", 0, 0, 0); 2_048]),
        case("1,500 rows, jumps to few", (0..1_500).map(few).collect()),
        case("2,048 rows of Eq", (0..2_048).map(|i| ("Eq", 0, (i * 7) % 2_048, 0)).collect()),
        case("an IfPos that counts down", vec![("Integer", 1_000_000, 1, 0), ("IfPos", 1, 1, 0), ("ResultRow", 1, 1, 0), ("Goto", 0, 1, 0)]),
    ]
}

/// One operation, many times, on a state of nearly 512 cells.
fn costly_rows() -> Vec<Case> {
    let table: [Row; 2] = [("OpenEphemeral", 0, 240, 0), ("RowData", 0, 1, 0)];
    let full: [Row; 1] = [("Null", 0, 0, 490)];
    let half: [Row; 1] = [("Null", 0, 1, 240)];
    vec![
        case("Integer into 490 registers", behind(6, &full, |i| ("Integer", i, (i * 97) % 491, 0), 1_500)),
        case("Integer into 490 new registers", behind(6, &[], |i| ("Integer", i, i % 490, 0), 1_500)),
        case("the same, downwards", behind(6, &[], |i| ("Integer", i, 489 - i % 490, 0), 1_500)),
        case("the same, out of order", behind(6, &[], |i| ("Integer", i, (i * 97) % 490, 0), 1_500)),
        case("Column of 240 columns", behind(6, &table, |i| ("Column", 0, i % 240, 2), 1_500)),
        case("RowData of 240 columns", behind(6, &table, |_| ("RowData", 0, 1, 0), 1_500)),
        case("Insert of 240 columns", behind(6, &table, |_| ("Insert", 0, 1, 0), 1_500)),
        case("NullRow of 240 columns", behind(6, &table, |_| ("NullRow", 0, 0, 0), 1_500)),
        case("Null of 490 registers", behind(6, &full, |_| ("Null", 0, 0, 489), 200)),
        case("MakeRecord of 240 registers", behind(6, &half, |_| ("MakeRecord", 1, 240, 250), 200)),
        case("Copy of 240 registers", behind(6, &full, |_| ("Copy", 0, 245, 239), 200)),
        case("Move of 240 registers", behind(6, &full, |_| ("Move", 0, 245, 240), 200)),
        case("ResultRow of 490 registers", behind(6, &full, |_| ("ResultRow", 0, 491, 0), 28)),
    ]
}

/// `column IN (?, ?, ...)`: each value is made a record of one column and put into a table.
fn lists() -> Vec<Case> {
    let before: [Row; 2] = [("Null", 0, 1, 0), ("OpenEphemeral", 2, 1, 0)];
    let value = |i: i64| match i % 3 {
        0 => ("Variable", i / 3 + 1, 4, 0),
        1 => ("MakeRecord", 4, 1, 5),
        _ => ("IdxInsert", 2, 5, 4),
    };
    vec![case("a list of 480 values", behind(6, &before, value, 1_440))]
}

fn texts() -> Vec<Case> {
    let last = behind(8, &[], |_| ("OpenRead", 0, 512, 0), 50);
    let absent = behind(9, &[], |_| ("OpenRead", 0, 9_999, 0), 190);
    let mut long = made("2,048 rows with P4 of 255 bytes", &vec![("Noop", 0, 0, 0); 2_048], Vec::new());
    let text = String::from_utf8_lossy(&long.listing).replace("p4=", &format!("p4={}", "61".repeat(255)));
    long.listing = text.into_bytes();
    vec![
        made("OpenRead of the last of 4,096 records", &last, records(4_096)),
        made("OpenRead of a page that is not there, 4,096 records", &absent, records(4_096)),
        long,
    ]
}

/// One operation, 1,400 times behind 64 ways, on a few registers: what handling a row costs.
pub fn each_operation() -> Vec<Case> {
    let before: [Row; 7] = [
        ("Integer", 1, 1, 0),
        ("Null", 0, 2, 7),
        ("MakeRecord", 2, 3, 9),
        ("OpenEphemeral", 0, 5, 0),
        ("OpenPseudo", 1, 9, 3),
        ("Variable", 1, 8, 0),
        ("String8", 0, 3, 0),
    ];
    let rows: [(&str, fn(i64) -> Row); 30] = [
        ("Noop", |_| ("Noop", 0, 0, 0)),
        ("Goto", |i| ("Goto", 0, i + 20, 0)),
        ("Gosub", |i| ("Gosub", 10, i + 20, 0)),
        ("InitCoroutine", |i| ("InitCoroutine", 11, i + 20, 30)),
        ("IfPos", |i| ("IfPos", 1, i + 20, 0)),
        ("SCopy", |i| ("SCopy", i % 7 + 1, i % 5 + 2, 0)),
        ("SCopy of a record", |_| ("SCopy", 9, 12, 0)),
        ("Copy of one", |i| ("Copy", i % 7 + 1, i % 5 + 2, 0)),
        ("Copy of three", |_| ("Copy", 1, 4, 2)),
        ("Move", |i| ("Move", i % 7 + 1, i % 5 + 2, 1)),
        ("Integer", |i| ("Integer", i, i % 7 + 1, 0)),
        ("Null", |i| ("Null", 0, i % 7 + 1, 0)),
        ("Null of four", |_| ("Null", 0, 3, 6)),
        ("Add", |i| ("Add", i % 7 + 1, i % 5 + 1, i % 6 + 1)),
        ("String8", |i| ("String8", 0, i % 7 + 1, 0)),
        ("Variable", |i| ("Variable", i, i % 7 + 1, 0)),
        ("HaltIfNull", |i| ("HaltIfNull", 0, 0, i % 7 + 1)),
        ("AggStep", |i| ("AggStep", 0, 1, i % 7 + 1)),
        ("AggFinal", |i| ("AggFinal", i % 7 + 1, 0, 0)),
        ("MakeRecord", |_| ("MakeRecord", 3, 2, 9)),
        ("Column", |i| ("Column", 0, i % 5, i % 7 + 1)),
        ("Column of a record", |i| ("Column", 1, i % 3, i % 7 + 1)),
        ("RowData", |_| ("RowData", 0, 9, 0)),
        ("Rowid", |i| ("Rowid", 0, i % 7 + 1, 0)),
        ("Count", |i| ("Count", 0, i % 7 + 1, 0)),
        ("Insert", |_| ("Insert", 0, 9, 0)),
        ("Delete", |_| ("Delete", 0, 0, 0)),
        ("OpenPseudo", |_| ("OpenPseudo", 1, 9, 3)),
        ("OpenDup", |_| ("OpenDup", 2, 0, 0)),
        ("NullRow", |_| ("NullRow", 0, 0, 0)),
    ];
    rows.into_iter().map(|(name, row)| case(name, behind(6, &before, row, 1_400))).collect()
}

pub fn all() -> Vec<Case> {
    [states(), wide(), rows(), costly_rows(), lists(), texts()].into_iter().flatten().collect()
}
