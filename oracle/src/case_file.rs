//! Files of cases: `case NAME LISTING CATALOGUE AREA ANSWER NUMBER LENGTH` LF, then the bytes of the listing, of
//! the catalogue and of the expected answer.
use crate::compare::{Case, PortGave};
use std::io::{self, Write};

pub struct Expected {
    pub case: Case,
    pub number: u64,
    pub answer: Vec<u8>,
}

fn bad(what: &str) -> io::Error {
    io::Error::new(io::ErrorKind::InvalidData, what.to_string())
}

fn take<'a>(rest: &mut &'a [u8], count: usize) -> io::Result<&'a [u8]> {
    if count > rest.len() {
        return Err(bad("a case is cut off"));
    }
    let (taken, left) = rest.split_at(count);
    *rest = left;
    Ok(taken)
}

fn head(line: &[u8]) -> io::Result<(String, [usize; 6])> {
    let text = std::str::from_utf8(line).map_err(|_| bad("a head is no text"))?;
    let mut words = text.split(' ');
    let name = match (words.next(), words.next()) {
        (Some("case"), Some(name)) => name.to_string(),
        _ => return Err(bad("a head is no case")),
    };
    let numbers: Vec<usize> = words.map(|w| w.parse()).collect::<Result<_, _>>().map_err(|_| bad("a head's number"))?;
    Ok((name, numbers.try_into().map_err(|_| bad("a head has six numbers"))?))
}

pub fn read(file: &[u8]) -> io::Result<Vec<Expected>> {
    let mut rest = file;
    let mut cases = Vec::new();
    while !rest.is_empty() {
        let end = rest.iter().position(|b| *b == b'\n').ok_or(bad("a head has no end"))?;
        let line = take(&mut rest, end)?;
        take(&mut rest, 1)?;
        let (name, [listing, catalogue, area, answer, number, length]) = head(line)?;
        let listing = take(&mut rest, listing)?.to_vec();
        let catalogue = take(&mut rest, catalogue)?.to_vec();
        let expected = take(&mut rest, length)?.to_vec();
        let case = Case { name, listing, catalogue, area, answer, kind_of_area: cases.len() };
        cases.push(Expected { case, number: number as u64, answer: expected });
    }
    Ok(cases)
}

pub fn write(out: &mut impl Write, case: &Case, gave: &PortGave) -> io::Result<()> {
    writeln!(
        out,
        "case {} {} {} {} {} {} {}",
        case.name,
        case.listing.len(),
        case.catalogue.len(),
        case.area,
        case.answer,
        gave.number,
        gave.answer.len()
    )?;
    out.write_all(&case.listing)?;
    out.write_all(&case.catalogue)?;
    out.write_all(&gave.answer)
}
