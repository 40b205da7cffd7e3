//! Faults in what an operand may be besides the constants, and in which operands are looked at.
use super::at::{is_constant, is_or_flips, At};
use super::rules::{pair, Rules, RIGHT};
use super::Row;
use crate::lists::model::operation;
use crate::marking::worksheet::MARK;
use crate::marking::worksheets::Shape;
use crate::pairs::pair::Operation;
use crate::pattern::{is_nan, magnitude, SIGN};
use crate::step::Step;
use std::ops::Range;

pub const FAULTS: [Row; 34] = [
    (by(|at, p| at.allows(p) && !at.is_only(at.sheet.x, p)), Shape::Sheets, "x not allowed"),
    (by(|at, p| at.allows(p) && !at.is_only(at.sheet.y, p)), Shape::Sheets, "y not allowed"),
    (by(|at, p| at.allows(p) && !at.is_only(at.sheet.x ^ SIGN, p)), Shape::Walks, "x's flip not allowed"),
    (by(|at, p| at.allows(p) && !at.is_only(at.sheet.y ^ SIGN, p)), Shape::Walks, "y's flip not allowed"),
    (by(|at, p| of_difference(at, p, 0)), Shape::Walks, "a difference's y as asked not allowed"),
    (by(|at, p| of_difference(at, p, SIGN)), Shape::Sheets, "a difference's flipped y not allowed"),
    (
        by(|at, p| at.is_given(p) || at.seen().any(|seen| seen == p)),
        Shape::Sheets,
        "a result's flip not allowed",
    ),
    (by(unflipped), Shape::Sheets, "flips not allowed"),
    (by_results(|line| 0..line + 1), Shape::Faults, "a line's own result allowed"),
    (by(|at, p| at.allows(p) || is_later(at, p, 1)), Shape::Faults, "the next line's result allowed"),
    (by(|at, p| at.allows(p) || is_later(at, p, 100)), Shape::Faults, "a later line's result allowed"),
    (by(|at, p| at.allows(p) || is_later(at, p, 100)), Shape::Disturbed, "a later line's result allowed"),
    (by_results(|_| 0..0), Shape::Sheets, "no result allowed"),
    (by_results(|line| line.saturating_sub(1)..line), Shape::Sheets, "the last result alone"),
    (by_results(|line| 0..line.saturating_sub(1)), Shape::Sheets, "the last result not allowed"),
    (by_results(|line| 1..line), Shape::Sheets, "the first result not allowed"),
    (by_results(|line| 0..line.min(13)), Shape::Walks, "the first 13 results alone"),
    (by_results(|line| 0..line.min(64)), Shape::Walks, "the first 64 results alone"),
    (by_results(|line| 0..line.min(98)), Shape::Walks, "the 99th result not allowed"),
    (by_results(|line| line.saturating_sub(13)..line), Shape::Walks, "the last 13 results alone"),
    (by(|at, p| at.allows(p) || is_mark(at, p)), Shape::Faults, "an earlier mark allowed"),
    (by(|at, p| at.allows(p) || is_half(at, p)), Shape::Faults, "the pair's halves allowed"),
    (by(|at, p| at.allows(p) || is_nan(p) && is_nan(at.sheet.x)), Shape::Faults, "any NaN for a NaN"),
    (by(|at, p| at.allows(p) && !is_nan(p)), Shape::Sheets, "NaN not allowed"),
    (by(|at, p| at.allows(p) || at.allows(p ^ 1)), Shape::Disturbed, "an operand's last bit not looked at"),
    (by_places(|_, place| place != 0), Shape::Faults, "the first operand not looked at"),
    (by_places(|_, place| place != 1), Shape::Faults, "the second operand not looked at"),
    (by_places(|_, place| place != 2), Shape::Faults, "the third operand of fma not looked at"),
    (by_idle(|_, _, _| true), Shape::Faults, "an unused third not looked at"),
    (
        by_idle(|_, step, word| word == 0 || step != Step::Add),
        Shape::Faults,
        "add's unused third not looked at",
    ),
    (
        by_idle(|_, step, word| word == 0 || step != Step::Sub),
        Shape::Faults,
        "sub's unused third not looked at",
    ),
    (
        by_idle(|_, step, word| word == 0 || step != Step::Mul),
        Shape::Faults,
        "mul's unused third not looked at",
    ),
    (by_idle(|at, _, word| at.allows(word)), Shape::Faults, "an operand taken for an unused third"),
    (by_idle(|_, _, word| magnitude(word) == 0), Shape::Faults, "80000000 taken for an unused third"),
];

const fn by(allows: fn(&At, u32) -> bool) -> Rules {
    Rules { allows, ..RIGHT }
}

const fn by_results(results: fn(usize) -> Range<usize>) -> Rules {
    Rules { results, ..RIGHT }
}

const fn by_places(looks: fn(Step, usize) -> bool) -> Rules {
    Rules { looks, ..RIGHT }
}

const fn by_idle(idle: fn(&At, Step, u32) -> bool) -> Rules {
    Rules { idle, ..RIGHT }
}

/// One of y's two signs is not allowed in a difference.
fn of_difference(at: &At, pattern: u32, flip: u32) -> bool {
    let is_difference = operation(at.sheet.operation) == Some(Operation::Difference);
    at.allows(pattern) && !(is_difference && at.is_only(at.sheet.y ^ flip, pattern))
}

/// What there is stands for itself alone; -2, -u and -0 are listed.
fn unflipped(at: &At, pattern: u32) -> bool {
    let is_listed = pattern & SIGN == 0 || [0xC000_0000, 0x8000_0001, SIGN].contains(&pattern);
    let is_known = [at.sheet.x, at.sheet.y].into_iter().chain(at.seen()).any(|known| known == pattern);
    is_known || is_listed && is_constant(pattern)
}

/// The result of one of so many lines behind this one, or its flip.
fn is_later(at: &At, pattern: u32, lines: usize) -> bool {
    let mut behind = at.sheet.results().skip(at.line + 1).take(lines);
    behind.any(|result| is_or_flips(result, pattern))
}

fn is_mark(at: &At, pattern: u32) -> bool {
    (0..at.line).any(|line| at.sheet.line(line)[MARK] == pattern)
}

fn is_half(at: &At, pattern: u32) -> bool {
    let (first, second) = pair(at.sheet);
    first == pattern || second == pattern
}
