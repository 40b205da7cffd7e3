//! Faults in the NaN that a step returns.
use super::Row;
use crate::pattern::{is_nan, is_signalling, magnitude, INFINITY, NAN, QUIET, SIGN};
use crate::questions::Shape;
use crate::step::{Question, Step, STEPS};

pub const FAULTS: [Row; 10] = [
    (|_, _, right| changed(right, |nan| nan ^ 1), &STEPS, Shape::Uniform, "another payload"),
    (|_, _, right| changed(right, |_| NAN), &STEPS, Shape::Special, "a NaN's payload lost"),
    (|_, _, right| changed(right, |nan| nan & !SIGN), &STEPS, Shape::Special, "a NaN's sign dropped"),
    (not_quieted, &STEPS, Shape::Special, "a signalling NaN not quieted"),
    (
        |_, q, right| first_of([q.y, q.x, q.z], right),
        &STEPS,
        Shape::Special,
        "the second NaN before the first",
    ),
    (signalling_first, &STEPS, Shape::Special, "a signalling NaN before a quiet one"),
    (own_sign, &STEPS, Shape::Special, "FFC00000 of operands that are not NaN"),
    (turned, &[Step::Sub], Shape::Special, "the sign of a NaN that is subtracted turned"),
    (
        |_, q, right| first_of([q.z, q.x, q.y], right),
        &[Step::Fma],
        Shape::Special,
        "the third NaN before the others",
    ),
    (product_first, &[Step::Fma], Shape::Special, "zero times infinity before a NaN that is added"),
];

fn changed(right: u32, change: fn(u32) -> u32) -> u32 {
    if is_nan(right) {
        change(right)
    } else {
        right
    }
}

/// The first NaN in this order of the operands, quieted.
fn first_of(operands: [u32; 3], right: u32) -> u32 {
    operands.into_iter().find(|&operand| is_nan(operand)).map_or(right, |nan| nan | QUIET)
}

fn not_quieted(_: Step, q: Question, right: u32) -> u32 {
    let operands = [q.x, q.y, q.z];
    operands.into_iter().find(|&operand| is_nan(operand)).unwrap_or(right)
}

fn signalling_first(_: Step, q: Question, right: u32) -> u32 {
    let operands = [q.x, q.y, q.z];
    operands.into_iter().find(|&operand| is_signalling(operand)).map_or(right, |nan| nan | QUIET)
}

fn own_sign(_: Step, q: Question, right: u32) -> u32 {
    let kept = [q.x, q.y, q.z].into_iter().any(is_nan);
    if is_nan(right) && !kept {
        right | SIGN
    } else {
        right
    }
}

fn turned(_: Step, q: Question, right: u32) -> u32 {
    if is_nan(q.y) && !is_nan(q.x) {
        right ^ SIGN
    } else {
        right
    }
}

fn product_first(_: Step, q: Question, right: u32) -> u32 {
    let (x, y) = (magnitude(q.x), magnitude(q.y));
    if (x.min(y), x.max(y)) == (0, INFINITY) {
        NAN
    } else {
        right
    }
}
