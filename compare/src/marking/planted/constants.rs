//! Faults in what is a constant: one that is not allowed, or its flip, and what is allowed though it is none.
use super::at::{is_constant, is_or_flips, At};
use super::rules::{Rules, RIGHT};
use super::Row;
use crate::marking::worksheets::Shape;
use crate::pattern::{INFINITY, NAN};

pub fn faults() -> Vec<Row> {
    let without = WITHOUT.iter().map(|&(rules, name)| (rules, Shape::Walks, name));
    let with = WITH.iter().map(|&(rules, name)| (rules, Shape::Faults, name));
    without.chain(OF_SHEETS).chain(with).collect()
}

const fn all_but<const PATTERN: u32>() -> Rules {
    Rules { allows: without::<PATTERN>, ..RIGHT }
}

const fn all_and<const PATTERN: u32>() -> Rules {
    Rules { allows: with::<PATTERN>, ..RIGHT }
}

/// The question's, and results, are still allowed.
fn without<const PATTERN: u32>(at: &At, pattern: u32) -> bool {
    pattern != PATTERN && is_constant(pattern) || at.is_asked(pattern) || at.is_result(pattern)
}

fn with<const PATTERN: u32>(at: &At, pattern: u32) -> bool {
    is_or_flips(PATTERN, pattern) || at.allows(pattern)
}

const WITHOUT: [(Rules, &str); 18] = [
    (all_but::<0x3F7F_FFFF>(), "3F7FFFFF not allowed"),
    (all_but::<0x4000_0000>(), "40000000 not allowed"),
    (all_but::<0xC000_0000>(), "C0000000 not allowed"),
    (all_but::<0x3F00_0000>(), "3F000000 not allowed"),
    (all_but::<0x3FFF_FFFF>(), "3FFFFFFF not allowed"),
    (all_but::<0x4B80_0000>(), "4B800000 not allowed"),
    (all_but::<0x5780_0000>(), "57800000 not allowed"),
    (all_but::<0x3380_0000>(), "33800000 not allowed"),
    (all_but::<0x0000_0000>(), "00000000 not allowed"),
    (all_but::<0x0000_0001>(), "00000001 not allowed"),
    (all_but::<0x8000_0001>(), "80000001 not allowed"),
    (all_but::<0x8000_0000>(), "80000000 not allowed"),
    (all_but::<0xBF7F_FFFF>(), "BF7FFFFF not allowed"),
    (all_but::<0xBF00_0000>(), "BF000000 not allowed"),
    (all_but::<0xBFFF_FFFF>(), "BFFFFFFF not allowed"),
    (all_but::<0xCB80_0000>(), "CB800000 not allowed"),
    (all_but::<0xD780_0000>(), "D7800000 not allowed"),
    (all_but::<0xB380_0000>(), "B3800000 not allowed"),
];

/// Those that a model sheet with its two lines needs have to be found by these, too.
const OF_SHEETS: [Row; 12] = [
    (all_but::<0x3F7F_FFFF>(), Shape::Sheets, "3F7FFFFF not allowed"),
    (all_but::<0x4000_0000>(), Shape::Sheets, "40000000 not allowed"),
    (all_but::<0xC000_0000>(), Shape::Sheets, "C0000000 not allowed"),
    (all_but::<0x3F00_0000>(), Shape::Sheets, "3F000000 not allowed"),
    (all_but::<0x3FFF_FFFF>(), Shape::Sheets, "3FFFFFFF not allowed"),
    (all_but::<0x4B80_0000>(), Shape::Sheets, "4B800000 not allowed"),
    (all_but::<0x5780_0000>(), Shape::Sheets, "57800000 not allowed"),
    (all_but::<0x3380_0000>(), Shape::Sheets, "33800000 not allowed"),
    (all_but::<0x0000_0000>(), Shape::Sheets, "00000000 not allowed"),
    (all_but::<0x0000_0001>(), Shape::Sheets, "00000001 not allowed"),
    (all_but::<0x8000_0001>(), Shape::Sheets, "80000001 not allowed"),
    (all_but::<0x8000_0000>(), Shape::Sheets, "80000000 not allowed"),
];

/// A neighbour, 1, 2 units of the last place, the smallest normal number, 2^-48, an infinity, NaN.
const WITH: [(Rules, &str); 7] = [
    (all_and::<0x4000_0001>(), "40000001 allowed"),
    (all_and::<0x3F80_0000>(), "3F800000 allowed"),
    (all_and::<0x0000_0002>(), "00000002 allowed"),
    (all_and::<0x0080_0000>(), "00800000 allowed"),
    (all_and::<0x2780_0000>(), "27800000 allowed"),
    (all_and::<INFINITY>(), "7F800000 allowed"),
    (all_and::<NAN>(), "7FC00000 allowed"),
];
