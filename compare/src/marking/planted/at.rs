//! Where a marker is in a worksheet, and what it has seen there.
use super::rules::RIGHT;
use crate::marking::worksheet::Worksheet;
use crate::pattern::{magnitude, SIGN};
use std::ops::Range;

/// A line, counted from 0, and the lines whose results its operands may be.
pub struct At<'a> {
    pub sheet: &'a Worksheet,
    pub line: usize,
    pub results: Range<usize>,
}

/// The magnitudes of a sheet's constants: 0 is that of -0.
const CONSTANTS: [u32; 9] = [
    0x3F7F_FFFF,
    0x4000_0000,
    0x3F00_0000,
    0x3FFF_FFFF,
    0x4B80_0000,
    0x5780_0000,
    0x3380_0000,
    0x0000_0000,
    0x0000_0001,
];

pub fn is_constant(pattern: u32) -> bool {
    CONSTANTS.contains(&magnitude(pattern))
}

pub fn is_or_flips(known: u32, pattern: u32) -> bool {
    known == pattern || known ^ SIGN == pattern
}

impl At<'_> {
    /// x, y, or the flip of one.
    pub fn is_asked(&self, pattern: u32) -> bool {
        is_or_flips(self.sheet.x, pattern) || is_or_flips(self.sheet.y, pattern)
    }

    /// Allowed on every line.
    pub fn is_given(&self, pattern: u32) -> bool {
        is_constant(pattern) || self.is_asked(pattern)
    }

    /// The result of one of the lines, or the flip of one. Lines that there are not are passed over.
    pub fn is_result(&self, pattern: u32) -> bool {
        self.seen().any(|result| is_or_flips(result, pattern))
    }

    pub fn seen(&self) -> impl Iterator<Item = u32> + '_ {
        self.sheet.results().take(self.results.end).skip(self.results.start)
    }

    /// As it should be.
    pub fn allows(&self, pattern: u32) -> bool {
        (RIGHT.allows)(self, pattern)
    }

    /// It is this one of x, y and their flips, and no other that is allowed.
    pub fn is_only(&self, this: u32, pattern: u32) -> bool {
        let asked = [self.sheet.x, self.sheet.y];
        let all = asked.into_iter().chain(asked.map(|known| known ^ SIGN));
        let alike = all.filter(|&known| known == pattern).count();
        this == pattern && alike == 1 && !is_constant(pattern) && !self.is_result(pattern)
    }
}
