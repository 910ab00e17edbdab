//! Port and original side by side: see README.md.
mod case;
mod clock;
mod dearest;
mod growth;
mod tables;
mod timing;

use std::path::Path;
use std::time::Duration;
use timing::Bench;

const USAGE: &str = "usage: bench [--only dearest|growth|sets] [--named TEXT] [--limit LISTINGS] FOLDER...
  --named TEXT   of the dearest, those whose name has this text";

struct Options {
    limit: usize,
    only: Option<String>,
    named: String,
    folders: Vec<String>,
}

fn options() -> Option<Options> {
    let mut found = Options { limit: 400, only: None, named: String::new(), folders: Vec::new() };
    let mut arguments = std::env::args().skip(1);
    while let Some(a) = arguments.next() {
        match a.as_str() {
            "--limit" => found.limit = arguments.next()?.parse().ok()?,
            "--named" => found.named = arguments.next()?,
            "--only" => found.only = Some(arguments.next()?),
            _ => found.folders.push(a),
        }
    }
    let known = found.only.as_ref().is_none_or(|o| ["dearest", "growth", "sets"].contains(&o.as_str()));
    known.then_some(found)
}

fn growth_tables(bench: &mut Bench) {
    println!("\n## Growth");
    tables::each(bench, "A straight listing of so many rows", "rows", &[128, 256, 512, 1_024, 2_048].map(growth::rows));
    tables::each(bench, "200 branching rows on so many cells", "cells", &[16, 32, 64, 128, 256, 500].map(growth::cells));
    let records = [64, 128, 256, 512, 1_024, 2_048, 4_096];
    tables::each(bench, "Eight tables opened and read among so many records", "records", &records.map(growth::catalogue));
}

fn main() {
    let Some(options) = options() else {
        eprintln!("{USAGE}");
        std::process::exit(2);
    };
    let wanted = |part: &str| options.only.as_ref().is_none_or(|o| o == part);
    let mut bench = Bench::new(Duration::from_millis(10));
    if wanted("sets") && !options.folders.is_empty() {
        println!("\n## Real listings");
        for folder in &options.folders {
            let path = Path::new(folder);
            let name = path.file_name().unwrap_or_default().to_string_lossy().into_owned();
            let (all, cases) = case::folder(path, options.limit).unwrap_or_else(|e| panic!("{folder}: {e}"));
            tables::set(&mut bench, &name, all, &cases);
        }
    }
    if wanted("dearest") {
        println!("\n## The dearest listings known");
        let named = |all: Vec<case::Case>| -> Vec<case::Case> { all.into_iter().filter(|c| c.name.contains(&options.named)).collect() };
        tables::each(&mut bench, "Made to be slow", "listing", &named(dearest::all()));
        let title = "One operation, 1,400 times behind 64 ways, on a few registers";
        tables::each(&mut bench, title, "operation", &named(dearest::each_operation()));
    }
    if wanted("growth") {
        growth_tables(&mut bench);
    }
}
