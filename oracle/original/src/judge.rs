//! What the call judges and counts, kept while the original runs. A refusal leaves the original by a panic
//! that carries its number.
use crate::connection::{explain, Columns, ConnectionState, ProgramRow};
use crate::text;
use std::cell::{Cell, RefCell};
use std::collections::BTreeSet;
use std::panic::{catch_unwind, panic_any, set_hook, take_hook, AssertUnwindSafe};

const GAS: u64 = 100_000;
const MOST_ROWS: usize = 2_048;
const MOST_RECORDS: usize = 4_096;
const MOST_CELLS: i64 = 512;
const MOST_DEPTH: usize = 8;
const MOST_AREA: usize = 16_777_216;
const LAST_INDEX: i64 = 65_535;

struct Refused(u32);
struct GivenUp;

/// A result row that was counted: its row number, and kind and blank of each column.
pub type Counted = (usize, Vec<(String, Option<bool>)>);

#[derive(Default)]
pub(crate) struct Judge {
    walking: bool,
    /// Cells of the state that the row is handled in, and of the state that is stored to now.
    base: i64,
    cells: i64,
    /// Units left for remembering, and those of the branch last offered, which may yet be dropped.
    units: i64,
    asked: i64,
    /// Map slots of all branches offered: what the original needs in memory.
    slots: usize,
    most_slots: usize,
    pub(crate) dispatched: u64,
    pub(crate) loopstops: u64,
    pub(crate) gasstops: u64,
    pub(crate) repeats: u64,
    pub(crate) handled: Vec<bool>,
    pub(crate) ignored: Vec<bool>,
    pub(crate) keep_rows: bool,
    pub(crate) counted: BTreeSet<Counted>,
}

thread_local! {
    static JUDGE: RefCell<Judge> = RefCell::new(Judge::default());
    static RUNNING: Cell<bool> = const { Cell::new(false) };
}

/// Panics of a running original are not printed: most carry a refusal, and the others are told by the verdict.
pub fn silence() {
    let usual = take_hook();
    set_hook(Box::new(move |info| {
        if !RUNNING.get() {
            usual(info)
        }
    }));
}

pub(crate) fn with<T>(f: impl FnOnce(&mut Judge) -> T) -> T {
    JUDGE.with(|j| f(&mut j.borrow_mut()))
}

pub(crate) fn refuse(number: u32) -> ! {
    panic_any(Refused(number))
}

impl Judge {
    /// Whether the row is handled: there is gas, and its lineage has handled it less than three times.
    pub(crate) fn dispatch(&mut self, row: usize, times: u8, again: bool) -> bool {
        self.dispatched += 1;
        let handled = self.dispatched <= GAS && times < 3;
        if handled {
            self.handled[row] = true;
            self.repeats += u64::from(again && times > 0);
        }
        handled
    }

    /// A dispatch is charged unless the original stops there for want of gas.
    fn charged(&self) -> u64 {
        self.dispatched - self.gasstops
    }
}

/// The branch last offered was not dropped: its units are taken.
pub(crate) fn settle() {
    let short = with(|j| {
        j.units -= std::mem::take(&mut j.asked);
        j.units < 0
    });
    if short {
        refuse(11)
    }
}

/// The branch last offered is dropped.
pub(crate) fn drop_asked() {
    with(|j| j.asked = 0);
}

/// A branch is offered. What is stored next goes to the state that was split.
pub(crate) fn ask(rows: usize, cells: usize, slots: usize) {
    settle();
    let gone = with(|j| {
        j.asked = (2 + cells + rows.div_ceil(16)) as i64;
        j.cells = j.base;
        j.slots += slots;
        j.slots > j.most_slots
    });
    if gone {
        panic_any(GivenUp)
    }
}

/// A row begins in a state of so many cells.
pub(crate) fn begin(cells: usize) {
    settle();
    with(|j| (j.base, j.cells) = (cells as i64, cells as i64));
}

/// An access to a map.
pub(crate) fn access(index: i64) {
    settle();
    if index < 0 {
        refuse(6)
    }
    if index > LAST_INDEX {
        refuse(7)
    }
}

/// A store behind its access: judged on depth and cells.
pub(crate) fn store(depth: usize, more: i64) {
    if depth > MOST_DEPTH {
        refuse(9)
    }
    let over = with(|j| {
        j.cells += more;
        j.walking && more > 0 && j.cells > MOST_CELLS
    });
    if over {
        refuse(8)
    }
}

/// The walk begins; the maps filled before are the catalogue's.
pub(crate) fn walk() {
    with(|j| j.walking = true);
}

/// What is judged before a row's accesses, and counts whose outcome is plain without making room for them.
pub(crate) fn before_accesses(row: &ProgramRow, after_insert: impl Fn() -> usize) {
    let (_, op, p1, p2, ..) = row;
    let number = match op.as_str() {
        "MakeRecord" | "OpenEphemeral" | "OpenAutoindex" | "SorterOpen" if *p2 < 0 => 6,
        "ResultRow" if *p2 > 2_000 => 12,
        // so many registers are read that an index passes 65,535, unless the first is below 0
        "MakeRecord" if *p2 > LAST_INDEX + 1 => 6 + u32::from(*p1 >= 0),
        // no index is used to build these columns
        "OpenEphemeral" | "OpenAutoindex" | "SorterOpen" if *p2 > LAST_INDEX + 1 => 8,
        // the original assigns the table's columns without a call of the map
        "Insert" | "IdxInsert" | "SorterInsert" if after_insert() as i64 > MOST_CELLS => 8,
        _ => return,
    };
    refuse(number)
}

#[derive(Debug, Clone, PartialEq, Eq)]
pub enum Verdict {
    Answered(Vec<u8>),
    Refused(u32),
    /// The original would need too much memory.
    GivenUp,
    /// The original ends in a way that no refusal stands for.
    Broken(String),
}

/// What the original gives, judged, and what was seen on the way.
pub struct Outcome {
    pub verdict: Verdict,
    pub program: Vec<ProgramRow>,
    /// By row: whether it was handled, and whether the original then ignored it.
    pub handled: Vec<bool>,
    pub ignored: Vec<bool>,
    pub units_used: usize,
    pub complete: bool,
    pub counted: BTreeSet<Counted>,
}

#[derive(Clone, Copy)]
pub struct Given<'a> {
    pub listing: &'a [u8],
    pub catalogue: &'a [u8],
    pub area: usize,
    pub answer: usize,
}

fn refused(number: u32) -> Outcome {
    Outcome {
        verdict: Verdict::Refused(number),
        program: Vec::new(),
        handled: Vec::new(),
        ignored: Vec::new(),
        units_used: 0,
        complete: false,
        counted: BTreeSet::new(),
    }
}

/// The units that an area of this length gives, if it is neither too short nor too long.
fn units(area: usize, rows: usize) -> Option<usize> {
    let fixed = 1_024 + 2 * rows;
    (area >= 16 * fixed && area <= MOST_AREA).then(|| area / 16 - fixed)
}

/// The original on this case, with every refusal from 1 to 12 judged.
pub fn run(given: Given, most_slots: usize, keep_rows: bool) -> Outcome {
    let Some(program) = text::listing(given.listing) else { return refused(1) };
    if program.len() > MOST_ROWS {
        return refused(3);
    }
    let Some(schema) = text::catalogue(given.catalogue) else { return refused(2) };
    if schema.len() > MOST_RECORDS {
        return refused(3);
    }
    let rows = program.len();
    let Some(units) = units(given.area, rows) else { return refused(4) };
    let start =
        Judge { units: units as i64, most_slots, keep_rows, handled: vec![false; rows], ignored: vec![false; rows], ..Judge::default() };
    with(|j| *j = start);
    let mut conn = ConnectionState { program, schema };
    RUNNING.set(true);
    let ended = catch_unwind(AssertUnwindSafe(|| explain(&mut conn).inspect(|_| settle())));
    RUNNING.set(false);
    let judge = with(std::mem::take);
    let verdict = match ended {
        Ok(Ok(columns)) => answered(answer_text(&columns, &judge), given.answer),
        Ok(Err(_)) => Verdict::Refused(10),
        Err(payload) => unwound(payload.as_ref()),
    };
    Outcome {
        verdict,
        program: conn.program,
        units_used: units - judge.units.max(0) as usize,
        complete: judge.loopstops + judge.gasstops + judge.repeats == 0,
        handled: judge.handled,
        ignored: judge.ignored,
        counted: judge.counted,
    }
}

fn answered(text: String, room: usize) -> Verdict {
    if text.len() > room {
        Verdict::Refused(5)
    } else {
        Verdict::Answered(text.into_bytes())
    }
}

fn unwound(payload: &(dyn std::any::Any + Send)) -> Verdict {
    if let Some(Refused(number)) = payload.downcast_ref() {
        return Verdict::Refused(*number);
    }
    if payload.is::<GivenUp>() {
        return Verdict::GivenUp;
    }
    let text = payload.downcast_ref::<String>().cloned();
    Verdict::Broken(text.or(payload.downcast_ref::<&str>().map(|s| s.to_string())).unwrap_or("a panic".into()))
}

pub fn blank_word(blank: Option<bool>) -> &'static str {
    match blank {
        Some(true) => "yes",
        Some(false) => "no",
        None => "unknown",
    }
}

fn answer_text((types, blanks): &Columns, judge: &Judge) -> String {
    let mut text = format!(
        "columns={}\ncharged={}\nloopstops={}\ngasstops={}\nrepeats={}\n",
        types.len(),
        judge.charged(),
        judge.loopstops,
        judge.gasstops,
        judge.repeats
    );
    for (i, (kind, blank)) in types.iter().zip(blanks).enumerate() {
        text += &format!("col={i}\ntype={}\nnull={}\n", kind.kind(), blank_word(*blank));
    }
    text
}
