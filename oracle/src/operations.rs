//! Operations and what their operands stand for.

/// What an operand is: the generator draws it so that rows refer to each other.
#[derive(Clone, Copy, PartialEq)]
pub enum Role {
    Register,
    Cursor,
    Target,
    Count,
    Number,
    Column,
    Flag,
    Database,
    Page,
    Span,
    Affinity,
    Unused,
}

use Role::*;

pub type Operation = (&'static str, [Role; 3]);

const NONE: [Role; 3] = [Unused; 3];
const JUMP: [Role; 3] = [Unused, Target, Unused];
const THREE: [Role; 3] = [Register; 3];
const TO_P2: [Role; 3] = [Unused, Register, Unused];
const P1_TO_P2: [Role; 3] = [Register, Register, Unused];
const CURSOR_TO_P2: [Role; 3] = [Cursor, Register, Unused];
const CURSOR_COUNT: [Role; 3] = [Cursor, Count, Unused];
const CURSOR_TARGET: [Role; 3] = [Cursor, Target, Unused];
const CURSOR_PAGE: [Role; 3] = [Cursor, Page, Database];
const REGISTER_TARGET: [Role; 3] = [Register, Target, Unused];

/// Operations whose operands have a meaning of their own. The others of the original go to P2 or on.
pub const SPECIAL: &[Operation] = &[
    ("Gosub", REGISTER_TARGET),
    ("IsNull", REGISTER_TARGET),
    ("NotNull", REGISTER_TARGET),
    ("MustBeInt", [Register, Flag, Unused]),
    ("If", [Register, Target, Flag]),
    ("IfPos", [Register, Target, Flag]),
    ("Rewind", CURSOR_TARGET),
    ("Last", CURSOR_TARGET),
    ("Sort", CURSOR_TARGET),
    ("SorterSort", CURSOR_TARGET),
    ("InitCoroutine", [Register, Target, Target]),
    ("EndCoroutine", [Register, Unused, Unused]),
    ("Return", [Register, Unused, Flag]),
    ("Yield", REGISTER_TARGET),
    ("Jump", [Target; 3]),
    ("Column", [Cursor, Column, Register]),
    ("Sequence", CURSOR_TO_P2),
    ("RowData", CURSOR_TO_P2),
    ("SorterData", CURSOR_TO_P2),
    ("MakeRecord", [Register, Count, Register]),
    ("Insert", CURSOR_TO_P2),
    ("IdxInsert", CURSOR_TO_P2),
    ("SorterInsert", CURSOR_TO_P2),
    ("Delete", [Cursor, Unused, Unused]),
    ("OpenPseudo", CURSOR_TO_P2),
    ("OpenDup", [Cursor, Cursor, Unused]),
    ("OpenRead", CURSOR_PAGE),
    ("OpenWrite", CURSOR_PAGE),
    ("OpenEphemeral", CURSOR_COUNT),
    ("OpenAutoindex", CURSOR_COUNT),
    ("SorterOpen", CURSOR_COUNT),
    ("Variable", TO_P2),
    ("HaltIfNull", [Unused, Unused, Register]),
    ("Function", [Unused, Flag, Register]),
    ("NullRow", [Cursor, Unused, Unused]),
    ("AggStep", THREE),
    ("AggValue", THREE),
    ("AggFinal", THREE),
    ("Cast", [Register, Affinity, Unused]),
    ("SCopy", P1_TO_P2),
    ("IntCopy", P1_TO_P2),
    ("Not", P1_TO_P2),
    ("Copy", [Register, Register, Span]),
    ("Move", [Register, Register, Span]),
    ("Integer", [Number, Register, Unused]),
    ("Blob", TO_P2),
    ("Count", TO_P2),
    ("Real", TO_P2),
    ("String8", TO_P2),
    ("Rowid", CURSOR_TO_P2),
    ("IdxRowid", CURSOR_TO_P2),
    ("NewRowid", CURSOR_TO_P2),
    ("Null", [Unused, Register, Span]),
    ("OffsetLimit", THREE),
    ("ResultRow", [Register, Count, Unused]),
    ("Halt", NONE),
    ("Or", THREE),
    ("And", THREE),
    ("BitAnd", THREE),
    ("BitOr", THREE),
    ("ShiftLeft", THREE),
    ("ShiftRight", THREE),
    ("Add", THREE),
    ("Subtract", THREE),
    ("Multiply", THREE),
    ("Divide", THREE),
    ("Remainder", THREE),
    ("Concat", THREE),
];

/// Operations that have no arm: the first is the only one that the original names all the same.
pub const WITHOUT_ARM: &[Operation] = &[
    ("Int64", TO_P2),
    ("Noop", NONE),
    ("Transaction", NONE),
    ("NotFound", CURSOR_TARGET),
    ("AddImm", [Register, Number, Unused]),
    ("Eqq", JUMP),
    ("goto", JUMP),
    ("ResultRo", [Register, Count, Unused]),
    ("ABCDEFGHIJKLMNOPQRSTUVWXYZ012345", NONE),
    ("0", NONE),
];

pub fn has_arm(name: &str) -> bool {
    name != WITHOUT_ARM[0].0 && original::OPERATIONS.contains(&name)
}

/// The operations that have an arm, by the names in the original.
pub fn arms() -> Vec<Operation> {
    let roles = |name: &str| SPECIAL.iter().find(|s| s.0 == name).map_or(JUMP, |s| s.1);
    original::OPERATIONS.iter().filter(|n| has_arm(n)).map(|n| (*n, roles(n))).collect()
}

pub fn named(name: &str) -> Operation {
    let all = SPECIAL.iter().chain(WITHOUT_ARM);
    all.copied().find(|o| o.0 == name).unwrap_or_else(|| {
        let known = original::OPERATIONS.iter().find(|o| **o == name);
        (known.unwrap_or_else(|| panic!("there is no operation {name}")), JUMP)
    })
}
