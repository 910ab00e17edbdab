//! One case through both sides.
use crate::lend::{only, Lent};
use original::judge::{run, Given, Outcome, Verdict};

const ANSWER_FILL: u8 = 0x5a;
const AREA_FILLS: [u8; 4] = [0xa5, 0xff, 0x01, 0x80];

#[derive(Clone)]
pub struct Case {
    /// By this name the case can be made again.
    pub name: String,
    pub listing: Vec<u8>,
    pub catalogue: Vec<u8>,
    pub area: usize,
    pub answer: usize,
    /// What the port finds in the area, and where the area and the answer begin: 0 to 15 past an address.
    pub kind_of_area: usize,
}

impl Case {
    pub fn given(&self) -> Given<'_> {
        Given { listing: &self.listing, catalogue: &self.catalogue, area: self.area, answer: self.answer }
    }
}

/// What the port gave, number and answer.
pub struct PortGave {
    pub number: u64,
    pub length: usize,
    pub answer: Vec<u8>,
}

#[derive(Default)]
pub struct Buffers {
    listing: Lent,
    catalogue: Lent,
    area: Lent,
    answer: Lent,
}

pub struct Compared {
    pub port: PortGave,
    pub outcome: Outcome,
    /// What differs; empty where both sides agree.
    pub differences: Vec<String>,
}

impl Buffers {
    /// The port on this case, and what it wrote where it must not.
    pub fn call(&mut self, case: &Case) -> (PortGave, Vec<String>) {
        let (shift, fill) = (case.kind_of_area % 16, AREA_FILLS[case.kind_of_area / 16 % 4]);
        self.listing.lend(case.listing.len(), 0, shift / 3).copy_from_slice(&case.listing);
        self.catalogue.lend(case.catalogue.len(), 0, shift / 2).copy_from_slice(&case.catalogue);
        let area = self.area.lend(case.area, fill, shift);
        let answer = self.answer.lend(case.answer, ANSWER_FILL, 15 - shift);
        let (number, length) = port::call(self.listing.bytes(), self.catalogue.bytes(), area, answer);
        let kept = length.min(case.answer);
        let port = PortGave { number, length, answer: self.answer.bytes()[..kept].to_vec() };
        let wrong = self.wrong(case, &port, kept);
        (port, wrong)
    }

    fn wrong(&self, case: &Case, port: &PortGave, kept: usize) -> Vec<String> {
        let refused = port.number != 0;
        let checks = [
            (port.length > case.answer, "the length is more than the buffer's"),
            (refused && port.length != 0, "a refusal with a length"),
            (!only(&self.answer.bytes()[kept..], ANSWER_FILL), "answer bytes behind the length were written"),
            (refused && !only(self.answer.bytes(), ANSWER_FILL), "a refusal wrote to the answer"),
            (!only(self.area.bytes(), 0), "the area is not all zero"),
            (!self.area.guarded(), "bytes beside the area were written"),
            (!self.answer.guarded(), "bytes beside the answer were written"),
            (!self.listing.guarded() || self.listing.bytes() != case.listing, "the listing was written"),
            (!self.catalogue.guarded() || self.catalogue.bytes() != case.catalogue, "the catalogue was written"),
        ];
        checks.iter().filter(|c| c.0).map(|c| c.1.to_string()).collect()
    }

    pub fn compare(&mut self, case: &Case, most_slots: usize, keep_rows: bool) -> Compared {
        let (port, mut differences) = self.call(case);
        let outcome = run(case.given(), most_slots, keep_rows);
        differences.extend(difference(&port, &outcome.verdict));
        Compared { port, outcome, differences }
    }
}

/// Number, length and bytes.
fn difference(port: &PortGave, verdict: &Verdict) -> Option<String> {
    let expected = match verdict {
        Verdict::Answered(bytes) => (0, bytes.as_slice()),
        Verdict::Refused(number) => (u64::from(*number), &[][..]),
        Verdict::GivenUp => return None,
        Verdict::Broken(why) => return Some(format!("the original breaks off: {why}")),
    };
    if port.number != expected.0 {
        return Some(format!("the port gives {}, the original {}", port.number, expected.0));
    }
    if port.length != expected.1.len() {
        return Some(format!("the port's length is {}, the original's {}", port.length, expected.1.len()));
    }
    (port.answer != expected.1).then(|| {
        let text = |b| String::from_utf8_lossy(b).replace('\n', " ");
        format!("the answers differ\n  port     {}\n  original {}", text(&port.answer), text(expected.1))
    })
}
