//! Faults in the mark that a step returns.
use super::rounding::{dropped, HALF};
use crate::marks::{self, EXACT, ROUNDED, SPECIAL};
use crate::pairs::number::Number;
use crate::pattern::{exponent_field, is_finite, is_nan, is_subnormal, magnitude, FRACTION, INFINITY, SIGN};
use crate::questions::Shape;
use crate::step::{Answer, Question, Step, STEPS};

/// The mark that is given in the place of the right answer's.
pub type Fault = fn(Step, Question, Answer) -> u32;

type Row = (Fault, &'static [Step], Shape, &'static str);

const SUMS: [Step; 3] = [Step::Add, Step::Sub, Step::Fma];
const PRODUCTS: [Step; 2] = [Step::Mul, Step::Fma];

/// What finite operands can show: the processor's flag has to find these too.
pub const OF_FINITE: [Row; 20] = [
    (|_, _, right| right.mark & !ROUNDED, &STEPS, Shape::Uniform, "no mark 1"),
    (|_, _, right| right.mark.max(ROUNDED), &STEPS, Shape::Special, "no mark 0"),
    (cancelled, &SUMS, Shape::Cancelling, "1 for an exact zero of numbers that cancel"),
    (of_zeros, &STEPS, Shape::Special, "1 for an exact zero of zeros"),
    (lost_to_zero, &PRODUCTS, Shape::Subnormal, "0 for what is rounded to zero"),
    (exact_overflow, &STEPS, Shape::Overflow, "0 at overflow"),
    (|_, _, right| at_overflow(right, SPECIAL), &STEPS, Shape::Overflow, "2 at overflow"),
    (short_overflow, &STEPS, Shape::Overflow, "0 at overflow of what has 24 bits"),
    (short_underflow, &PRODUCTS, Shape::Subnormal, "0 for 24 bits below 2^-149"),
    (beside_zero, &SUMS, Shape::Special, "1 where a zero is added to a number far from it"),
    (operand_lost, &SUMS, Shape::Near, "0 where an operand is lost"),
    (last_bit, &STEPS, Shape::Uniform, "exactness by the result's last bit"),
    (first_dropped, &STEPS, Shape::Near, "exactness by the first bit that is dropped"),
    (at_a_tie, &STEPS, Shape::Halfway, "0 at a tie"),
    (
        |_, _, right| subnormal(right, right.mark.max(ROUNDED)),
        &STEPS,
        Shape::Subnormal,
        "1 for exact subnormal results",
    ),
    (
        |_, _, right| subnormal(right, right.mark & !ROUNDED),
        &PRODUCTS,
        Shape::Subnormal,
        "0 for rounded subnormal results",
    ),
    (of_product, &[Step::Fma], Shape::Cancelling, "the product's mark"),
    (|_, q, _| marks::mark(Step::Add, q), &[Step::Sub], Shape::Near, "the sum's mark for a difference"),
    (|_, q, _| marks::mark(Step::Sub, q), &[Step::Add], Shape::Near, "the difference's mark for a sum"),
    (powers, &[Step::Mul], Shape::Cancelling, "0 where the result is a power of two"),
];

/// What only infinite and NaN operands can show, where the flag says nothing.
pub const OF_OTHERS: [Row; 8] = [
    (exact_infinity, &STEPS, Shape::Special, "2 for NaN results alone, and else 0"),
    (rounded_infinity, &STEPS, Shape::Special, "2 for NaN results alone, and else 1"),
    (
        |step, q, right| if q.has_nan(step) { right.mark } else { right.mark & 1 },
        &STEPS,
        Shape::Special,
        "2 for NaN operands alone",
    ),
    (
        |step, q, right| if q.has_nan(step) { ROUNDED } else { right.mark },
        &STEPS,
        Shape::Special,
        "2 for infinite operands alone",
    ),
    (
        |step, q, right| if is_finite(q.x) { of_step(step, q, right) } else { right.mark },
        &STEPS,
        Shape::Special,
        "the first operand alone looked at",
    ),
    (
        |step, q, right| if is_finite(q.y) { of_step(step, q, right) } else { right.mark },
        &STEPS,
        Shape::Special,
        "the first operand not looked at",
    ),
    (third_unseen, &[Step::Fma], Shape::Special, "the third operand not looked at"),
    (|_, _, right| right.mark.min(ROUNDED), &STEPS, Shape::Uniform, "1 for infinite and NaN operands"),
];

/// 1 in the place of 2.
fn of_step(step: Step, q: Question, right: Answer) -> u32 {
    if q.is_finite(step) {
        right.mark
    } else {
        ROUNDED
    }
}

pub fn third_unseen(step: Step, q: Question, right: Answer) -> u32 {
    if is_finite(q.x) && is_finite(q.y) {
        of_step(step, q, right)
    } else {
        right.mark
    }
}

fn is_exact_zero(right: Answer) -> bool {
    magnitude(right.result) == 0 && right.mark == EXACT
}

pub fn cancelled(_: Step, q: Question, right: Answer) -> u32 {
    if is_exact_zero(right) && magnitude(q.x) != 0 && magnitude(q.y) != 0 {
        ROUNDED
    } else {
        right.mark
    }
}

pub fn of_zeros(_: Step, q: Question, right: Answer) -> u32 {
    if is_exact_zero(right) && (magnitude(q.x) == 0 || magnitude(q.y) == 0) {
        ROUNDED
    } else {
        right.mark
    }
}

pub fn lost_to_zero(_: Step, _: Question, right: Answer) -> u32 {
    if magnitude(right.result) == 0 {
        EXACT
    } else {
        right.mark
    }
}

pub fn exact_overflow(_: Step, _: Question, right: Answer) -> u32 {
    at_overflow(right, EXACT)
}

fn at_overflow(right: Answer, mark: u32) -> u32 {
    if magnitude(right.result) == INFINITY && right.mark == ROUNDED {
        mark
    } else {
        right.mark
    }
}

/// Of finite operands whose exact value is not zero: the bits from its first to its last.
fn bits(step: Step, q: Question) -> Option<u32> {
    let exact = q.is_finite(step).then(|| match step {
        Step::Add => Number::of(q.x).sum(&Number::of(q.y)),
        Step::Sub => Number::of(q.x).sum(&Number::of(q.y ^ SIGN)),
        Step::Mul => Number::product(q.x, q.y),
        Step::Fma => Number::product(q.x, q.y).sum(&Number::of(q.z)),
    })?;
    exact.magnitude.places().map(|(lowest, highest)| highest - lowest + 1)
}

pub fn short_overflow(step: Step, q: Question, right: Answer) -> u32 {
    if bits(step, q).is_some_and(|bits| bits <= 24) {
        at_overflow(right, EXACT)
    } else {
        right.mark
    }
}

fn short_underflow(step: Step, q: Question, right: Answer) -> u32 {
    if bits(step, q).is_some_and(|bits| bits <= 24) && magnitude(right.result) != INFINITY {
        EXACT
    } else {
        right.mark
    }
}

/// The exponent field of a zero lies far below another's.
pub fn beside_zero(step: Step, q: Question, right: Answer) -> u32 {
    let other = if step == Step::Fma { q.z } else { q.y };
    if magnitude(other) == 0 && exponent_field(right.result) > 26 && right.mark == EXACT {
        ROUNDED
    } else {
        right.mark
    }
}

fn operand_lost(_: Step, q: Question, right: Answer) -> u32 {
    let is_kept = [q.x, q.y, q.z].map(magnitude).contains(&magnitude(right.result));
    if is_kept && right.mark == ROUNDED {
        EXACT
    } else {
        right.mark
    }
}

pub fn last_bit(_: Step, _: Question, right: Answer) -> u32 {
    if right.mark == SPECIAL {
        SPECIAL
    } else {
        right.result & 1
    }
}

fn first_dropped(step: Step, q: Question, right: Answer) -> u32 {
    if right.mark == ROUNDED && dropped(step, q).is_some_and(|bits| bits & HALF == 0) {
        EXACT
    } else {
        right.mark
    }
}

fn at_a_tie(step: Step, q: Question, right: Answer) -> u32 {
    if dropped(step, q) == Some(HALF) {
        EXACT
    } else {
        right.mark
    }
}

fn subnormal(right: Answer, mark: u32) -> u32 {
    if is_subnormal(right.result) {
        mark
    } else {
        right.mark
    }
}

/// Of an fma.
fn of_product(step: Step, q: Question, right: Answer) -> u32 {
    if q.is_finite(step) {
        marks::mark(Step::Mul, q)
    } else {
        right.mark
    }
}

fn powers(_: Step, _: Question, right: Answer) -> u32 {
    if right.result & FRACTION == 0 {
        right.mark & !ROUNDED
    } else {
        right.mark
    }
}

pub fn exact_infinity(_: Step, _: Question, right: Answer) -> u32 {
    infinite(right, EXACT)
}

pub fn rounded_infinity(_: Step, _: Question, right: Answer) -> u32 {
    infinite(right, ROUNDED)
}

/// Of an infinite result that an infinite operand led to.
fn infinite(right: Answer, mark: u32) -> u32 {
    if right.mark == SPECIAL && !is_nan(right.result) {
        mark
    } else {
        right.mark
    }
}
