//! Where cases come from, by their index in a run.
use crate::compare::Case;
use crate::damage::damage;
use crate::generate::{listing, Listing};
use crate::random::Random;
use crate::shapes::Shape;
use original::judge::{run, Given, Verdict};

const AMPLE: usize = 16 * 12_000;
const AMPLE_IF_LONG: usize = 16 * 60_000;
const SLOTS: usize = 4_000_000;

/// What a first run of the original says: units taken and the answer's length, where it is answered.
fn first_run(text: &[u8], catalogue: &[u8], area: usize) -> Option<(usize, usize)> {
    let outcome = run(Given { listing: text, catalogue, area, answer: 1 << 17 }, SLOTS, false);
    match outcome.verdict {
        Verdict::Answered(bytes) => Some((outcome.units_used, bytes.len())),
        _ => None,
    }
}

/// A length at which the case is only just served, or only just not.
fn just(r: &mut Random, exact: usize, steps: &[i64]) -> usize {
    (exact as i64 + r.pick(steps)).max(0) as usize
}

fn area(r: &mut Random, least: usize, ample: usize, units: Option<usize>) -> usize {
    if r.below(1_500) == 0 {
        return 16_777_216 + r.below(3);
    }
    match (r.below(200), units) {
        (0..=59, _) => least + 16 * r.within(200, 3_000) as usize + r.below(16),
        (60..=99, _) => least + r.below(3_000),
        (100..=139, Some(units)) => just(r, least + 16 * units, &[-17, -16, -1, 0, 1, 15, 16]),
        (140..=149, _) => least.saturating_sub(r.pick(&[1, 2, 15, 16, 17, 1_000, 100_000])),
        (150..=169, _) => 65_536,
        (170..=174, _) => 1_048_576 - r.below(20),
        (175, _) => 16_777_216 - r.below(2),
        _ => least + ample,
    }
}

fn answer(r: &mut Random, length: Option<usize>) -> usize {
    match (r.below(20), length) {
        (0..=5, Some(length)) => just(r, length, &[-1, -1, 0, 0, 1, 15]),
        (6, _) => r.below(120),
        (7..=9, _) => 65_536,
        _ => 4_096 + r.below(16),
    }
}

fn fitted(r: &mut Random, name: String, made: &Listing, listing: Vec<u8>, catalogue: Vec<u8>) -> Case {
    let least = 16 * (1_024 + 2 * made.rows.len());
    let ample = if made.shape == Shape::Long { AMPLE_IF_LONG } else { AMPLE };
    let seen = if r.chance(40) { first_run(&listing, &catalogue, least + ample) } else { None };
    let area = area(r, least, ample, seen.map(|s| s.0));
    let answer = answer(r, seen.map(|s| s.1));
    Case { name, listing, catalogue, area, answer, kind_of_area: r.below(64) }
}

/// A random listing; one in a hundred is damaged.
pub fn random(seed: u64, index: u64) -> (Case, Listing) {
    let r = &mut Random::of(seed, index);
    let made = listing(r);
    let (mut text, mut catalogue) = (made.text(), made.catalogue());
    match r.below(200) {
        0 => damage(r, &mut text),
        1 => damage(r, &mut catalogue),
        _ => {}
    }
    let case = fitted(r, format!("random-{seed}-{index}"), &made, text, catalogue);
    (case, made)
}

/// The texts of a random listing, damaged.
pub fn damaged(seed: u64, index: u64) -> (Case, Listing) {
    let r = &mut Random::of(seed ^ 0x6461_6d61_6765, index);
    let made = listing(r);
    let (mut text, mut catalogue) = (made.text(), made.catalogue());
    match r.below(5) {
        0 | 1 => damage(r, &mut text),
        2 | 3 => damage(r, &mut catalogue),
        _ => {
            damage(r, &mut text);
            damage(r, &mut catalogue);
        }
    }
    let name = format!("damaged-{seed}-{index}");
    let case = Case { name, listing: text, catalogue, area: 65_536 + r.below(40_000), answer: 4_096, kind_of_area: r.below(64) };
    (case, made)
}
