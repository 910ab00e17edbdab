//! What was measured, as Markdown.
use crate::case::Case;
use crate::timing::{Bench, Times};

const AREA_NAMES: [&str; 3] = ["65,536 B", "1 MiB", "16 MiB"];

/// Microseconds, or larger units where they are many.
fn shown(micros: f64) -> String {
    match micros {
        m if m < 9.995 => format!("{m:.2} µs"),
        m if m < 999.5 => format!("{m:.0} µs"),
        m if m < 999_995.0 => format!("{:.2} ms", m / 1e3),
        m => format!("{:.2} s", m / 1e6),
    }
}

fn ratio(r: f64) -> String {
    format!("{r:.2}")
}

/// The value that so many hundredths are at or below.
fn quantile(sorted: &[f64], hundredths: usize) -> f64 {
    sorted[(sorted.len() * hundredths).div_ceil(100).clamp(1, sorted.len()) - 1]
}

fn line(name: &str, values: impl Iterator<Item = f64>, show: impl Fn(f64) -> String) {
    let mut sorted: Vec<f64> = values.collect();
    sorted.sort_by(f64::total_cmp);
    let at = |h| show(quantile(&sorted, h));
    println!("| {name} | {} | {} | {} | {} |", at(50), at(90), at(99), at(100));
}

/// Median, 90%, 99% and the most, over the listings of a set that are answered at each area.
pub fn set(bench: &mut Bench, name: &str, all: usize, cases: &[Case]) {
    let times: Vec<Times> = cases.iter().filter_map(|c| bench.times(c)).collect();
    println!("\n### {name}: {} of {all} listings, {} answered\n", cases.len(), times.len());
    println!("| | median | 90% | 99% | max |\n|---|---|---|---|---|");
    let grown: Vec<(f64, &Times)> = times.iter().map(|t| (t.grown, t)).collect();
    lines("areas in turn", &grown);
    for (area, label) in AREA_NAMES.iter().enumerate() {
        let here: Vec<(f64, &Times)> = times.iter().filter_map(|t| Some((t.port[area]?, t))).collect();
        lines(label, &here);
    }
}

/// The port's times, the original's on the same listings, and the ratios.
fn lines(label: &str, here: &[(f64, &Times)]) {
    if here.is_empty() {
        return;
    }
    line(&format!("**port, {label}** ({} answered)", here.len()), here.iter().map(|h| h.0), shown);
    line("original, rows already read", here.iter().map(|h| h.1.walk), shown);
    line("original with reading", here.iter().map(|h| h.1.reading), shown);
    line("port / original, rows already read", here.iter().map(|h| h.0 / h.1.walk), ratio);
    line("port / original with reading", here.iter().map(|h| h.0 / h.1.reading), ratio);
}

/// A line for each case; the ratios are those of the smallest area at which it is answered.
pub fn each(bench: &mut Bench, title: &str, first: &str, cases: &[Case]) {
    println!("\n### {title}\n");
    println!("| {first} | port, 65,536 B | port, 1 MiB | port, 16 MiB | original, rows already read | original with reading | ratio | ratio with reading |");
    println!("|---|---|---|---|---|---|---|---|");
    for case in cases {
        match bench.times(case) {
            Some(times) => one(&case.name, &times),
            None => println!("| {} | refused | refused | refused | | | | |", case.name),
        }
    }
}

fn one(name: &str, times: &Times) {
    let [a, b, c] = times.port.map(|t| t.map_or("refused".into(), shown));
    let least = times.port.iter().flatten().next().copied().unwrap_or(f64::NAN);
    let (walk, reading) = (times.walk, times.reading);
    let (to_walk, to_reading) = (ratio(least / walk), ratio(least / reading));
    println!("| {name} | {a} | {b} | {c} | {} | {} | {to_walk} | {to_reading} |", shown(walk), shown(reading));
}
