//! Faults in what is right.
use super::results::{one_nan, one_zero};
use super::rules::{about, claimed, pair, pair_by, Rules, RIGHT};
use super::Row;
use crate::lists::model::operation;
use crate::marking::model::{Marked, LINE};
use crate::marking::worksheet::{Worksheet, MARK};
use crate::marking::worksheets::Shape;
use crate::pairs::number::{Magnitude, Number};
use crate::pairs::pair::Operation::{self, Difference, Product, Sum};
use crate::pattern::{is_finite, is_nan, magnitude, QUIET, SIGN};
use crate::step::{Question, Step};

pub const FAULTS: [Row; 31] = [
    (by(|_| true), Shape::Walks, "always right"),
    (by(|_| true), Shape::Claims, "always right"),
    (by(|_| false), Shape::Sheets, "never right"),
    (by(|_| false), Shape::Claims, "never right"),
    (by(|sheet| seen(sheet, |(first, _)| (first, 0))), Shape::Claims, "right by first alone"),
    (by(|sheet| seen(sheet, |(_, second)| (0, second))), Shape::Claims, "right by second alone"),
    (by(|sheet| seen(sheet, |(a, b)| (a.min(b), a.max(b)))), Shape::Claims, "the pair exchanged taken"),
    (by(|sheet| is_claimed(sheet, exchanged(pair(sheet)))), Shape::Sheets, "second before first"),
    (by(|sheet| seen(sheet, |(a, b)| (one_zero(a), one_zero(b)))), Shape::Claims, "+0 equal to -0"),
    (by(|sheet| seen(sheet, |(a, b)| (a, one_zero(b)))), Shape::Claims, "+0 equal to -0 in second"),
    (by(|sheet| seen(sheet, |(a, b)| (one_nan(a), one_nan(b)))), Shape::Claims, "NaN equal to any NaN"),
    (by(|sheet| seen(sheet, |(a, b)| (magnitude(a), magnitude(b)))), Shape::Claims, "signs not looked at"),
    (by(|sheet| seen(sheet, |(a, b)| (a, magnitude(b)))), Shape::Claims, "second's sign not looked at"),
    (by(|sheet| seen(sheet, |(a, b)| (a & !1, b))), Shape::Claims, "first's last bit not looked at"),
    (by(|sheet| seen(sheet, |(a, b)| (a, b & !1))), Shape::Claims, "second's last bit not looked at"),
    (by(|sheet| is_right(sheet) && is_finite(pair(sheet).0)), Shape::Sheets, "nothing right but numbers"),
    (by(|sheet| is_right(sheet) && is_exact(sheet)), Shape::Sheets, "right where all marks are 0 alone"),
    (by(two_anywhere), Shape::Claims, "the pair on any two lines"),
    (by(each_anywhere), Shape::Claims, "first on any line"),
    (by(|sheet| is_of(sheet, |_| Sum)), Shape::Claims, "every operation marked as a sum"),
    (by(|sheet| is_of(sheet, unflipped)), Shape::Claims, "a difference marked as a sum"),
    (by(|sheet| is_of(sheet, unflipped)), Shape::Sheets, "a difference marked as a sum"),
    (by(|sheet| is_of(sheet, flipped)), Shape::Claims, "a sum marked as a difference"),
    (by(turned), Shape::Sheets, "a difference marked as y - x"),
    (by(kept_nan), Shape::Claims, "a difference's NaN not flipped"),
    (by(kept_nan), Shape::Sheets, "a difference's NaN not flipped"),
    (by(|sheet| is_right(sheet) || adds_up(sheet)), Shape::Claims, "whatever adds up right"),
    (by(|sheet| is_right(sheet) || is_to_even(sheet)), Shape::Claims, "a tie to even right"),
    (by(plus_zero), Shape::Claims, "a zero second of +0"),
    (by(plus_zero), Shape::Sheets, "a zero second of +0"),
    (Rules { before: wrong_is_refused, ..RIGHT }, Shape::Claims, "15 for a pair that is not right"),
];

const fn by(right: fn(&Worksheet) -> bool) -> Rules {
    Rules { right, ..RIGHT }
}

/// As it should be.
fn is_right(sheet: &Worksheet) -> bool {
    (RIGHT.right)(sheet)
}

fn is_claimed(sheet: &Worksheet, pair: (u32, u32)) -> bool {
    claimed(sheet) == Some(pair)
}

/// By what is seen of both.
fn seen(sheet: &Worksheet, seen: fn((u32, u32)) -> (u32, u32)) -> bool {
    claimed(sheet).map(seen) == Some(seen(pair(sheet)))
}

fn exchanged((first, second): (u32, u32)) -> (u32, u32) {
    (second, first)
}

fn is_exact(sheet: &Worksheet) -> bool {
    sheet.words.chunks_exact(LINE).all(|line| line[MARK] == 0)
}

fn two_anywhere(sheet: &Worksheet) -> bool {
    let right = pair(sheet);
    sheet.results().zip(sheet.results().skip(1)).any(|two| two == right)
}

/// Second has to be the last result still.
fn each_anywhere(sheet: &Worksheet) -> bool {
    let (first, second) = pair(sheet);
    sheet.results().any(|result| result == first) && claimed(sheet).is_some_and(|claimed| claimed.1 == second)
}

/// By the pair of another operation.
fn is_of(sheet: &Worksheet, other: fn(Operation) -> Operation) -> bool {
    let operation = operation(sheet.operation).unwrap_or(Sum);
    is_claimed(sheet, pair_by(other(operation), sheet))
}

fn unflipped(operation: Operation) -> Operation {
    if operation == Difference {
        Sum
    } else {
        operation
    }
}

fn flipped(operation: Operation) -> Operation {
    if operation == Sum {
        Difference
    } else {
        operation
    }
}

fn is_difference(sheet: &Worksheet) -> bool {
    operation(sheet.operation) == Some(Difference)
}

fn turned(sheet: &Worksheet) -> bool {
    let turned = Worksheet { x: sheet.y, y: sheet.x, ..sheet.clone() };
    is_right(if is_difference(sheet) { &turned } else { sheet })
}

fn kept_nan(sheet: &Worksheet) -> bool {
    if is_difference(sheet) && is_nan(sheet.y) && !is_nan(sheet.x) {
        is_claimed(sheet, (sheet.y | QUIET, sheet.y | QUIET))
    } else {
        is_right(sheet)
    }
}

/// The halves come to the exact sum, difference or product.
fn adds_up(sheet: &Worksheet) -> bool {
    let Some((first, second)) = claimed(sheet) else { return false };
    let Worksheet { x, y, .. } = *sheet;
    if ![first, second, x, y].into_iter().all(is_finite) {
        return false;
    }
    let exact = match operation(sheet.operation) {
        Some(Product) => Number::product(x, y),
        Some(Difference) => Number::of(x).sum(&Number::of(y ^ SIGN)),
        _ => Number::of(x).sum(&Number::of(y)),
    };
    let halves = Number::of(first).sum(&Number::of(second));
    exact.sum(&halves.opposite()).magnitude == Magnitude::ZERO
}

/// First is what a step gives, and second is the rest.
fn is_to_even(sheet: &Worksheet) -> bool {
    let step = match operation(sheet.operation) {
        Some(Product) => Step::Mul,
        Some(Difference) => Step::Sub,
        _ => Step::Add,
    };
    let rounded = (RIGHT.answer)(step, Question::two(sheet.x, sheet.y)).result;
    adds_up(sheet) && claimed(sheet).is_some_and(|claimed| claimed.0 == rounded)
}

fn plus_zero(sheet: &Worksheet) -> bool {
    let (first, second) = pair(sheet);
    is_claimed(sheet, (first, if magnitude(second) == 0 { 0 } else { second }))
}

/// The last line is said to be false.
fn wrong_is_refused(sheet: &Worksheet, rules: &Rules) -> Option<Marked> {
    let wrong = || (!is_right(sheet)).then(|| about(15, sheet.words.len() / LINE - 1));
    (RIGHT.before)(sheet, rules).or_else(|| rules.refused(sheet)).or_else(wrong)
}
