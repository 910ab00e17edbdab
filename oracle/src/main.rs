//! The port and the original in one process, on the same cases: see README.md.
mod case_file;
mod compare;
mod damage;
mod generate;
mod lend;
mod operations;
mod random;
mod report;
mod shapes;
mod source;
mod totals;

use compare::{Buffers, Case, Compared};
use generate::Listing;
use operations::has_arm;
use original::folder;
use original::judge::{blank_word, silence, Counted, Verdict};
use std::io::{self, Write};
use std::path::{Path, PathBuf};
use std::process::ExitCode;
use std::sync::Mutex;
use std::{fs, thread};
use totals::Totals;

const USAGE: &str = "usage: oracle cases FILE... | listings DIR... | random SEED COUNT | damaged SEED COUNT
  --save DIR      disagreements as files
  --threads N     (default: as many as the machine has)
  --from INDEX    random, damaged: the first case's index
  --complete      random, damaged: an arm or a number from 0 to 12 that never occurs is a failure
  --write FILE    random: the searchable cases that are answered, and FILE.rows with the rows that the original counted";
/// Map slots that the original may fill in one case.
const SLOTS: usize = 50_000_000;
const AREAS: [usize; 3] = [65_536, 1_048_576, 16_777_216];

#[derive(Default)]
struct Options {
    rest: Vec<String>,
    save: Option<PathBuf>,
    write: Option<PathBuf>,
    threads: usize,
    from: u64,
    complete: bool,
}

fn options() -> Option<Options> {
    let threads = thread::available_parallelism().map_or(1, usize::from);
    let mut found = Options { threads, ..Options::default() };
    let mut arguments = std::env::args().skip(1);
    while let Some(a) = arguments.next() {
        match a.as_str() {
            "--save" => found.save = Some(arguments.next()?.into()),
            "--write" => found.write = Some(arguments.next()?.into()),
            "--threads" => found.threads = arguments.next()?.parse().ok()?,
            "--from" => found.from = arguments.next()?.parse().ok()?,
            "--complete" => found.complete = true,
            _ => found.rest.push(a),
        }
    }
    (found.rest.len() >= 2 && found.threads > 0).then_some(found)
}

/// One thread's share of a run.
#[derive(Default)]
struct Share {
    totals: Totals,
    cases: Vec<u8>,
    rows: Vec<u8>,
}

impl Share {
    fn note(&mut self, options: &Options, case: &Case, mut compared: Compared) {
        compared.differences.extend(arms_differ(&compared));
        if !compared.differences.is_empty() {
            report::print(case, &compared);
            if let Some(dir) = &options.save {
                report::save(dir, case, &compared).expect("the folder for disagreements can be written");
            }
        }
        if compared.outcome.verdict == Verdict::GivenUp {
            println!("given up by the original: {}", case.name);
        }
        self.totals.add(&compared);
    }

    fn write(&mut self, case: &Case, made: &Listing, compared: &Compared) {
        if compared.port.number == 0 && shapes::searchable(made.shape) {
            case_file::write(&mut self.cases, case, &compared.port).expect("memory");
            rows_text(&mut self.rows, case, compared.outcome.counted.iter());
        }
    }
}

/// The table of operations says which have an arm; the original must say the same.
fn arms_differ(compared: &Compared) -> Option<String> {
    let outcome = &compared.outcome;
    let rows = outcome.program.iter().zip(&outcome.handled).zip(&outcome.ignored);
    // a Function with an unknown text is told in the same way, and a row where the walk ends is not told
    let wrong = |((row, handled), ignored): ((&original::connection::ProgramRow, &bool), &bool)| {
        (*handled && *ignored && has_arm(&row.1) && row.1 != "Function").then(|| format!("the original ignores {}", row.1))
    };
    rows.into_iter().find_map(wrong)
}

fn rows_text<'a>(out: &mut Vec<u8>, case: &Case, rows: impl ExactSizeIterator<Item = &'a Counted>) {
    let mut text = format!("rows {} {}\n", case.name, rows.len());
    for (row, columns) in rows {
        let columns: Vec<String> = columns.iter().map(|(kind, blank)| format!("{kind}/{}", blank_word(*blank))).collect();
        text += &format!("{row} {}\n", columns.join(" "));
    }
    out.extend_from_slice(text.as_bytes());
}

/// Runs `count` cases in as many threads as wanted, each taking the next index.
fn spread(options: &Options, count: u64, one: impl Fn(u64, &mut Share, &mut Buffers) + Sync) -> Vec<Share> {
    let next = Mutex::new(0);
    let shares = Mutex::new(Vec::new());
    thread::scope(|scope| {
        for _ in 0..options.threads {
            scope.spawn(|| {
                let (mut share, mut buffers) = (Share::default(), Buffers::default());
                loop {
                    let index = {
                        let mut next = next.lock().expect("no thread ends early");
                        *next += 1;
                        *next - 1
                    };
                    if index >= count {
                        break;
                    }
                    one(index, &mut share, &mut buffers);
                }
                shares.lock().expect("no thread ends early").push(share);
            });
        }
    });
    shares.into_inner().expect("no thread ends early")
}

fn made(options: &Options, what: &str, source: fn(u64, u64) -> (Case, Listing)) -> io::Result<Totals> {
    let number = |i: usize| options.rest.get(i).and_then(|n| n.parse().ok()).ok_or(io::Error::other(USAGE));
    let (seed, count): (u64, u64) = (number(1)?, number(2)?);
    let keep = options.write.is_some();
    let shares = spread(options, count, |index, share, buffers| {
        let (case, listing) = source(seed, options.from + index);
        let compared = buffers.compare(&case, SLOTS, keep);
        if keep {
            share.write(&case, &listing, &compared);
        }
        share.note(options, &case, compared);
    });
    let mut totals = Totals::default();
    let (mut cases, mut rows) = (Vec::new(), Vec::new());
    for share in shares {
        totals.merge(share.totals);
        cases.extend(share.cases);
        rows.extend(share.rows);
    }
    if let Some(file) = &options.write {
        fs::File::create(file)?.write_all(&cases)?;
        fs::File::create(format!("{}.rows", file.display()))?.write_all(&rows)?;
    }
    totals.print(&format!("{what} {seed}"));
    totals.print_missing();
    Ok(totals)
}

fn cases(options: &Options) -> io::Result<Totals> {
    let mut totals = Totals::default();
    for file in &options.rest[1..] {
        let all = case_file::read(&fs::read(file)?)?;
        let shares = spread(options, all.len() as u64, |index, share, buffers| {
            let expected = &all[index as usize];
            let mut compared = buffers.compare(&expected.case, SLOTS, false);
            if compared.port.number != expected.number || compared.port.answer != expected.answer {
                let text = String::from_utf8_lossy(&expected.answer).replace('\n', " ");
                compared.differences.push(format!("the file expects number {} and the answer {text}", expected.number));
            }
            share.note(options, &expected.case, compared);
        });
        shares.into_iter().for_each(|s| totals.merge(s.totals));
    }
    totals.print("cases");
    Ok(totals)
}

fn listings(options: &Options) -> io::Result<Totals> {
    let mut all = Totals::default();
    for dir in &options.rest[1..] {
        let paths = folder::listings(Path::new(dir))?;
        let shares = spread(options, paths.len() as u64, |index, share, buffers| {
            let path = &paths[index as usize];
            let listing = fs::read(path).expect("a listing can be read");
            let catalogue = fs::read(path.with_extension("catalog")).unwrap_or_default();
            for area in AREAS {
                let name = format!("{}-{area}", path.file_stem().unwrap_or_default().to_string_lossy());
                let case = Case { name, listing: listing.clone(), catalogue: catalogue.clone(), area, answer: 65_536, kind_of_area: index as usize };
                let compared = buffers.compare(&case, SLOTS, false);
                share.note(options, &case, compared);
            }
        });
        let mut totals = Totals::default();
        shares.into_iter().for_each(|s| totals.merge(s.totals));
        totals.print(&format!("listings {dir}"));
        all.merge(totals);
    }
    if options.rest.len() > 2 {
        all.print("listings in all");
    }
    Ok(all)
}

fn main() -> ExitCode {
    silence();
    let Some(options) = options() else {
        eprintln!("{USAGE}");
        return ExitCode::from(2);
    };
    let ended = match options.rest[0].as_str() {
        "cases" => cases(&options),
        "listings" => listings(&options),
        "random" => made(&options, "random", source::random),
        "damaged" => made(&options, "damaged", source::damaged),
        _ => Err(io::Error::other(USAGE)),
    };
    match ended {
        Ok(totals) if totals.cases == 0 => ExitCode::from(2),
        Ok(totals) => ExitCode::from(u8::from(totals.disagreements > 0 || options.complete && !totals.missing().is_empty())),
        Err(e) => {
            eprintln!("oracle: {e}");
            ExitCode::from(2)
        }
    }
}
