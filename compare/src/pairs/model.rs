//! The reference for every bit of a pair: exact numbers, and rounding by a search for the nearest pattern.
//!
//! It is written from the specification's words, to be believed rather than to be fast: nothing is shifted or
//! normalised to round it, and sums and products are rounded by the same few lines.
use super::number::{Magnitude, Number, ONE};
use super::pair::{Flags, Operation, Pair};
use crate::pattern::{is_finite, is_nan, is_signalling, magnitude, INFINITY, LARGEST, NAN, QUIET, SIGN};

pub fn pair(operation: Operation, x: u32, y: u32) -> Pair {
    let y = if operation == Operation::Difference { y ^ SIGN } else { y };
    if is_nan(x) || is_nan(y) {
        let flags = if is_signalling(x) || is_signalling(y) { Flags::I } else { Flags::NONE };
        let kept = if is_nan(x) { x } else { y };
        return Pair::twice(kept | QUIET, flags);
    }
    let finite = is_finite(x) && is_finite(y);
    match operation {
        Operation::Product if finite => product(x, y),
        Operation::Product => infinite_product(x, y),
        _ if finite => sum(x, y),
        _ => infinite_sum(x, y),
    }
}

fn infinite_sum(x: u32, y: u32) -> Pair {
    match (is_finite(x), is_finite(y)) {
        (false, false) if x != y => Pair::twice(NAN, Flags::I),
        (false, _) => Pair::twice(x, Flags::NONE),
        _ => Pair::twice(y, Flags::NONE),
    }
}

fn infinite_product(x: u32, y: u32) -> Pair {
    if magnitude(x) == 0 || magnitude(y) == 0 {
        return Pair::twice(NAN, Flags::I);
    }
    Pair::twice((x ^ y) & SIGN | INFINITY, Flags::NONE)
}

fn sum(x: u32, y: u32) -> Pair {
    let exact = Number::of(x).sum(&Number::of(y));
    if exact.magnitude == Magnitude::ZERO {
        // The common sign of the two zeros; numbers that cancel have none in common.
        return Pair::twice(x & y & SIGN, Flags::NONE);
    }
    let pair = rounded(&exact);
    assert!(!pair.flags.underflow, "the rest of a sum is a number");
    pair
}

fn product(x: u32, y: u32) -> Pair {
    rounded(&Number::product(x, y))
}

/// First is the exact number rounded, second the rest rounded.
fn rounded(exact: &Number) -> Pair {
    let first = nearest(exact);
    if !is_finite(first) {
        return Pair::twice(first, Flags::OX);
    }
    let rest = exact.sum(&Number::of(first).opposite());
    let second = nearest(&rest);
    let adds_up = Number::of(second).magnitude == rest.magnitude;
    let flags = if adds_up { Flags::NONE } else { Flags::UX };
    let second = if magnitude(second) == 0 { first & SIGN } else { second };
    Pair { first, second, flags }
}

/// RN0: the nearest pattern, of two that are equally near the one of smaller magnitude. Only a magnitude
/// strictly above 2^128 - 2^103 becomes infinite.
fn nearest(exact: &Number) -> u32 {
    let sign = if exact.negative { SIGN } else { 0 };
    let t = &exact.magnitude;
    let limit = Magnitude::at((1 << 25) - 1, ONE + 103);
    if *t > limit {
        return sign | INFINITY;
    }
    let below = largest_not_above(t);
    if below == LARGEST {
        return sign | LARGEST;
    }
    let from_below = t.minus(&Number::of(below).magnitude);
    let to_above = Number::of(below + 1).magnitude.minus(t);
    if to_above < from_below {
        sign | (below + 1)
    } else {
        sign | below
    }
}

/// By halving, as the patterns without sign rise with what they stand for.
pub fn largest_not_above(t: &Magnitude) -> u32 {
    let (mut low, mut high) = (0, INFINITY);
    // What `low` stands for is not above t; what `high` stands for is, unless it is infinite.
    while high - low > 1 {
        let middle = low + (high - low) / 2;
        if Number::of(middle).magnitude <= *t {
            low = middle;
        } else {
            high = middle;
        }
    }
    low
}
