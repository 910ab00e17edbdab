//! Readers of the two text forms, written for this comparison from the scope paper alone.
use crate::connection::{ProgramRow, SchemaRow};

/// What is left of a text; each call takes one line.
struct Lines<'a>(&'a [u8]);

impl<'a> Lines<'a> {
    /// The value of the next line, which ends in LF and begins with `key`.
    fn value(&mut self, key: &[u8]) -> Option<&'a [u8]> {
        let rest = self.0.strip_prefix(key)?;
        let end = rest.iter().position(|b| *b == b'\n')?;
        self.0 = &rest[end + 1..];
        Some(&rest[..end])
    }

    fn number(&mut self, key: &[u8], low: i64, high: i64) -> Option<i64> {
        number(self.value(key)?).filter(|n| (low..=high).contains(n))
    }
}

/// A decimal number without leading zeros or `-0`, of at most ten digits.
fn number(text: &[u8]) -> Option<i64> {
    let (sign, digits) = match text {
        [b'-', digits @ ..] => (-1, digits),
        digits => (1, digits),
    };
    match digits {
        [b'0'] if sign == 1 => return Some(0),
        [b'1'..=b'9', ..] if digits.len() <= 10 => {}
        _ => return None,
    }
    let mut value = 0;
    for digit in digits {
        value = value * 10 + char::from(*digit).to_digit(10).map(i64::from)?;
    }
    Some(sign * value)
}

/// Two lowercase hexadecimal digits a byte, at most 255 bytes.
fn bytes(hex: &[u8]) -> Option<Vec<u8>> {
    let digit = |b: u8| match b {
        b'0'..=b'9' => Some(b - b'0'),
        b'a'..=b'f' => Some(b - b'a' + 10),
        _ => None,
    };
    if hex.len() % 2 != 0 || hex.len() > 510 {
        return None;
    }
    hex.chunks(2).map(|two| Some(digit(two[0])? * 16 + digit(two[1])?)).collect()
}

fn operation(name: &[u8]) -> Option<String> {
    let good = (1..=32).contains(&name.len()) && name.iter().all(u8::is_ascii_alphanumeric);
    good.then(|| String::from_utf8_lossy(name).into_owned())
}

fn declared_type(text: &[u8]) -> Option<String> {
    let good = text.len() <= 64 && text.iter().all(|b| (32..=126).contains(b));
    good.then(|| String::from_utf8_lossy(text).into_owned())
}

/// The rows of a listing, or nothing where it is ill-formed.
pub fn listing(text: &[u8]) -> Option<Vec<ProgramRow>> {
    let (low, high) = (i64::from(i32::MIN), i64::from(i32::MAX));
    let mut lines = Lines(text);
    let mut rows = Vec::new();
    while !lines.0.is_empty() {
        let addr = lines.number(b"addr=", 0, high).filter(|a| *a == rows.len() as i64)?;
        let op = operation(lines.value(b"op=")?)?;
        let p1 = lines.number(b"p1=", low, high)?;
        let p2 = lines.number(b"p2=", low, high)?;
        let p3 = lines.number(b"p3=", low, high)?;
        rows.push((addr, op, p1, p2, p3, bytes(lines.value(b"p4=")?)?));
    }
    Some(rows)
}

/// The records of a catalogue, or nothing where it is ill-formed.
pub fn catalogue(text: &[u8]) -> Option<Vec<SchemaRow>> {
    let mut lines = Lines(text);
    let mut records = Vec::new();
    while !lines.0.is_empty() {
        let db = lines.number(b"db=", 0, 1)?;
        let page = lines.number(b"page=", 0, i64::from(i32::MAX))?;
        let col = lines.number(b"col=", 0, 65_535)?;
        let kind = declared_type(lines.value(b"type=")?)?;
        records.push((db, page, col, kind, lines.number(b"notnull=", 0, 1)? == 1));
    }
    Some(records)
}
