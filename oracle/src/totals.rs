//! What a run adds up to.
use crate::compare::Compared;
use crate::operations::{arms, has_arm};
use original::judge::Verdict;
use std::collections::BTreeMap;

#[derive(Default)]
pub struct Totals {
    pub cases: u64,
    pub disagreements: u64,
    pub given_up: u64,
    pub complete: u64,
    by_number: BTreeMap<u64, u64>,
    /// Answers with columns, loop stops, gas stops, repeats.
    with: [u64; 4],
    handled: BTreeMap<String, u64>,
}

/// The value of a line of the answer.
fn value(answer: &[u8], key: &str) -> u64 {
    let text = String::from_utf8_lossy(answer);
    text.lines().find_map(|l| l.strip_prefix(key)).and_then(|v| v.parse().ok()).unwrap_or(0)
}

impl Totals {
    pub fn add(&mut self, compared: &Compared) {
        self.cases += 1;
        self.disagreements += u64::from(!compared.differences.is_empty());
        *self.by_number.entry(compared.port.number).or_default() += 1;
        let outcome = &compared.outcome;
        self.given_up += u64::from(outcome.verdict == Verdict::GivenUp);
        if let Verdict::Answered(answer) = &outcome.verdict {
            self.complete += u64::from(outcome.complete);
            for (total, key) in self.with.iter_mut().zip(["columns=", "loopstops=", "gasstops=", "repeats="]) {
                *total += u64::from(value(answer, key) > 0);
            }
        }
        for (row, handled) in outcome.program.iter().zip(&outcome.handled) {
            if *handled {
                *self.handled.entry(row.1.clone()).or_default() += 1;
            }
        }
    }

    pub fn merge(&mut self, other: Totals) {
        self.cases += other.cases;
        self.disagreements += other.disagreements;
        self.given_up += other.given_up;
        self.complete += other.complete;
        for (number, count) in other.by_number {
            *self.by_number.entry(number).or_default() += count;
        }
        for (total, more) in self.with.iter_mut().zip(other.with) {
            *total += more;
        }
        for (name, count) in other.handled {
            *self.handled.entry(name).or_default() += count;
        }
    }

    /// What the run never met: numbers from 0 to 12, and arms.
    pub fn missing(&self) -> Vec<String> {
        let numbers = (0..=12).filter(|n| !self.by_number.contains_key(n)).map(|n| format!("number {n}"));
        let arms = arms().into_iter().map(|o| o.0).filter(|n| !self.handled.contains_key(*n)).map(str::to_string);
        numbers.chain(arms).collect()
    }

    pub fn print(&self, what: &str) {
        println!("{what}: {} cases, {} disagreements, {} given up by the original", self.cases, self.disagreements, self.given_up);
        let numbers: Vec<String> = self.by_number.iter().map(|(n, c)| format!("{n}: {c}")).collect();
        println!("  by number: {}", numbers.join(", "));
        let [columns, loops, gas, repeats] = self.with;
        println!("  answered with columns {columns}, loop stops {loops}, gas stops {gas}, repeats {repeats}; without stop and repeat {}", self.complete);
        let known = self.handled.keys().filter(|n| has_arm(n)).count();
        println!("  arms handled: {known} of {}; operations without an arm handled: {}", arms().len(), self.handled.len() - known);
    }

    pub fn print_missing(&self) {
        let missing = self.missing();
        println!("  never met: {}", if missing.is_empty() { "nothing".into() } else { missing.join(", ") });
    }
}
