//! The reference for a sheet's steps: exact numbers, rounded to the nearest pattern, a tie to the even last bit.
//!
//! It has the exact numbers and the search of the pairs' model, and nothing of the processor's floats.
use crate::pairs::model::largest_not_above;
use crate::pairs::number::{Magnitude, Number, ONE};
use crate::pattern::{is_finite, is_nan, magnitude, INFINITY, LARGEST, NAN, QUIET, SIGN};
use crate::step::{Answer, Question, Step};
use std::cmp::Ordering;

/// Where an operand is NaN, the first such is the result, quieted, and neither step nor other operands are looked at.
pub fn answer(step: Step, q: Question) -> Answer {
    if let Some(nan) = [q.x, q.y, q.z].into_iter().find(|&operand| is_nan(operand)) {
        return special(nan | QUIET);
    }
    match step {
        Step::Add => add(q.x, q.y),
        Step::Sub => add(q.x, q.y ^ SIGN),
        Step::Mul => mul(q.x, q.y),
        Step::Fma => fma(q.x, q.y, q.z),
    }
}

/// Of operands that are not all finite.
fn special(result: u32) -> Answer {
    Answer { result, mark: 2 }
}

fn add(x: u32, y: u32) -> Answer {
    match (is_finite(x), is_finite(y)) {
        (true, true) => rounded(&Number::of(x).sum(&Number::of(y)), x & y & SIGN),
        (true, false) => special(y),
        (false, true) => special(x),
        (false, false) => special(same_infinity(x, y)),
    }
}

fn mul(x: u32, y: u32) -> Answer {
    match special_product(x, y) {
        Some(result) => special(result),
        None => rounded(&Number::product(x, y), (x ^ y) & SIGN),
    }
}

/// One rounding of the product plus the third operand.
fn fma(x: u32, y: u32, z: u32) -> Answer {
    match (special_product(x, y), is_finite(z)) {
        (Some(NAN), _) => special(NAN),
        (None, true) => rounded(&Number::product(x, y).sum(&Number::of(z)), (x ^ y) & z & SIGN),
        (None, false) => special(z),
        (Some(infinity), true) => special(infinity),
        (Some(infinity), false) => special(same_infinity(infinity, z)),
    }
}

/// The NaN or infinity that a product is, unless both factors are finite.
fn special_product(x: u32, y: u32) -> Option<u32> {
    if is_finite(x) && is_finite(y) {
        return None;
    }
    let invalid = magnitude(x) == 0 || magnitude(y) == 0;
    Some(if invalid { NAN } else { (x ^ y) & SIGN | INFINITY })
}

fn same_infinity(x: u32, y: u32) -> u32 {
    if x == y {
        x
    } else {
        NAN
    }
}

/// An exact zero has the sign that the caller says; what is rounded to zero keeps its own. The mark is 0 where what the result stands
/// for is the exact number.
fn rounded(exact: &Number, sign_of_zero: u32) -> Answer {
    if exact.magnitude == Magnitude::ZERO {
        return Answer { result: sign_of_zero, mark: 0 };
    }
    let sign = if exact.negative { SIGN } else { 0 };
    let nearest = nearest(&exact.magnitude);
    let same = is_finite(nearest) && Number::of(nearest).magnitude == exact.magnitude;
    Answer { result: sign | nearest, mark: if same { 0 } else { 1 } }
}

/// RNe: 2^128 - 2^103 itself is infinite.
fn nearest(t: &Magnitude) -> u32 {
    if *t >= Magnitude::at((1 << 25) - 1, ONE + 103) {
        return INFINITY;
    }
    let below = largest_not_above(t);
    if below == LARGEST {
        return LARGEST;
    }
    let from_below = t.minus(&Number::of(below).magnitude);
    let to_above = Number::of(below + 1).magnitude.minus(t);
    match from_below.cmp(&to_above) {
        Ordering::Less => below,
        Ordering::Greater => below + 1,
        Ordering::Equal => below + (below & 1),
    }
}
