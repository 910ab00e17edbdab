//! Times of both sides on one case: the best of several runs.
use crate::case::Case;
use crate::clock::processor_time;
use original::connection::{explain, Columns, ConnectionState};
use original::text;
use std::time::{Duration, Instant};

pub const AREAS: [usize; 3] = [65_536, 1_048_576, 16_777_216];
/// A listing shorter than this is lent less first, by its length, and one of as many bytes as the other more at once, as host/report_columns does.
const SHORT: usize = 1_024;
const LONG: usize = 32_768;
const ANSWER: usize = 131_072;
const LEAST_RUNS: usize = 3;
const MOST_RUNS: usize = 40;
/// How often the sides take turns.
const ROUNDS: usize = 3;
/// Of a run slower than this, in seconds, the first is taken.
const SLOW: f64 = 2.0;
/// Brief runs are timed several at once, so that asking for the time adds little.
const BRIEF: f64 = 50e-6;

/// Microseconds. The port's time is there for each area at which the case is answered; `grown` is that of the calls with one area after
/// the other up to the first that answers, as host/report_columns lends them.
pub struct Times {
    pub port: [Option<f64>; 3],
    pub grown: f64,
    pub walk: f64,
    pub reading: f64,
}

impl Times {
    fn least(self, other: Times) -> Times {
        let mut port = self.port;
        for (mine, its) in port.iter_mut().zip(other.port) {
            *mine = mine.zip(its).map(|(a, b)| a.min(b));
        }
        Times {
            port,
            grown: self.grown.min(other.grown),
            walk: self.walk.min(other.walk),
            reading: self.reading.min(other.reading),
        }
    }
}

pub struct Bench {
    area: Vec<u8>,
    answer: Vec<u8>,
    budget: Duration,
}

/// Nothing is finite where the clock did not move, as a shared machine's sometimes does not.
fn seconds(times: usize, run: &mut impl FnMut()) -> f64 {
    let start = processor_time();
    for _ in 0..times {
        run();
    }
    let spent = (processor_time() - start) / times as f64;
    if spent > 0.0 {
        spent
    } else {
        f64::INFINITY
    }
}

/// The least time of several runs in microseconds, within the budget where it can be.
fn best(budget: Duration, mut run: impl FnMut()) -> f64 {
    let start = Instant::now();
    let mut least = seconds(1, &mut run);
    let together = (BRIEF / least).clamp(1.0, 50.0) as usize;
    for n in 1..MOST_RUNS {
        if least.is_finite() && least > SLOW || n >= LEAST_RUNS && start.elapsed() > budget {
            break;
        }
        least = least.min(seconds(together, &mut run));
    }
    least * 1e6
}

fn read(case: &Case) -> ConnectionState {
    let program = text::listing(&case.listing).expect("the port has read this listing");
    let schema = text::catalogue(&case.catalogue).expect("the port has read this catalogue");
    ConnectionState { program, schema }
}

fn walked(conn: &mut ConnectionState) -> Columns {
    explain(conn).expect("the port has answered this case")
}

/// The answer's lines about columns, as the original has them.
fn column_lines((types, blanks): &Columns) -> String {
    let word = |b: &Option<bool>| match b {
        Some(true) => "yes",
        Some(false) => "no",
        None => "unknown",
    };
    let line = |(i, (t, b)): (usize, (&original::SqliteTypeInfo, &Option<bool>))| {
        format!("col={i}\ntype={}\nnull={}\n", t.kind(), word(b))
    };
    types.iter().zip(blanks).enumerate().map(line).collect()
}

impl Bench {
    pub fn new(budget: Duration) -> Self {
        // touched once, so that no run pays for fresh pages
        Bench { area: vec![1; AREAS[2]], answer: vec![1; ANSWER], budget }
    }

    /// The port's time, and the answer's lines about columns if it answers with this area.
    fn port(&mut self, case: &Case, area: usize) -> (f64, Option<String>) {
        let (area, answer) = (&mut self.area[..area], &mut self.answer);
        let mut gave = (0, 0);
        let time = best(self.budget, || gave = port::call(&case.listing, &case.catalogue, area, answer));
        let text = String::from_utf8_lossy(&answer[..gave.1]);
        let columns = text.find("col=0\n").map_or(String::new(), |at| text[at..].to_string());
        (time, (gave.0 == 0).then_some(columns))
    }

    /// The time with the areas in turn, where that of the three is known.
    fn in_turn(&mut self, case: &Case, port: &[(f64, Option<String>); 3], answered: usize) -> f64 {
        let length = case.listing.len();
        let first = usize::from(length >= LONG);
        let three: f64 = port[first..=answered.max(first)].iter().map(|p| p.0).sum();
        if length >= SHORT {
            return three;
        }
        let (time, columns) = self.port(case, 16_384 + 8 * length);
        time + if columns.is_some() { 0.0 } else { three }
    }

    /// Nothing where the port refuses the case at every area. The two sides take turns, since a shared machine is slow for seconds at a time.
    pub fn times(&mut self, case: &Case) -> Option<Times> {
        let first = self.round(case)?;
        Some((1..ROUNDS).filter_map(|_| self.round(case)).fold(first, Times::least))
    }

    /// Both sides once. Two sides that disagree are not timed.
    fn round(&mut self, case: &Case) -> Option<Times> {
        let port = AREAS.map(|area| self.port(case, area));
        let first = port.iter().position(|p| p.1.is_some())?;
        let grown = self.in_turn(case, &port, first);
        let mut conn = read(case);
        let mut columns = None;
        let walk = best(self.budget, || columns = Some(walked(&mut conn)));
        let columns = column_lines(&columns.expect("it ran"));
        assert!(port.iter().filter_map(|p| p.1.as_ref()).all(|c| *c == columns), "{}: the columns differ", case.name);
        let reading = best(self.budget, || {
            std::hint::black_box(walked(&mut read(case)));
        });
        Some(Times { port: port.map(|(time, columns)| columns.map(|_| time)), grown, walk, reading })
    }
}
