//! Faults in how a step rounds.
use super::Row;
use crate::pattern::{is_finite, is_subnormal, magnitude, FRACTION, INFINITY, LARGEST, SIGN};
use crate::questions::Shape;
use crate::step::{Question, Step, STEPS};

pub const FAULTS: [Row; 5] = [
    (trace_lost, &STEPS, Shape::Near, "a trace above a tie lost"),
    (wrong_carry, &STEPS, Shape::Cancelling, "a wrong bit at a fraction of 0"),
    (wrong_tie, &STEPS, Shape::Halfway, "a wrong bit at a tie"),
    (flushed, &STEPS, Shape::Subnormal, "subnormal results flushed"),
    (saturated, &STEPS, Shape::Overflow, "no overflow to infinity"),
];

/// What lies just above a tie is taken for the tie.
fn trace_lost(step: Step, q: Question, right: u32) -> u32 {
    if dropped(step, q).is_some_and(just_above) {
        right & !1
    } else {
        right
    }
}

/// The last bit is wrong where the fraction field should be 0.
fn wrong_carry(_: Step, q: Question, right: u32) -> u32 {
    if q.x != 0 && q.y != 0 && is_finite(right) && right & FRACTION == 0 {
        right ^ 1
    } else {
        right
    }
}

fn wrong_tie(step: Step, q: Question, right: u32) -> u32 {
    if dropped(step, q) == Some(HALF) {
        right ^ 1
    } else {
        right
    }
}

fn flushed(_: Step, _: Question, right: u32) -> u32 {
    if is_subnormal(right) {
        right & SIGN
    } else {
        right
    }
}

/// What overflows becomes the largest number.
fn saturated(_: Step, q: Question, right: u32) -> u32 {
    let all_finite = is_finite(q.x) && is_finite(q.y) && is_finite(q.z);
    if all_finite && magnitude(right) == INFINITY {
        right & SIGN | LARGEST
    } else {
        right
    }
}

/// Half a unit in the last place of binary32, in units of binary64.
pub const HALF: u64 = 1 << 28;

fn just_above(bits: u64) -> bool {
    (HALF + 1..HALF + (1 << 21)).contains(&bits)
}

/// The bits that rounding drops from a result that is normal, as far as binary64 has them.
pub fn dropped(step: Step, q: Question) -> Option<u64> {
    let [x, y, z] = [q.x, q.y, q.z].map(|p| f64::from(f32::from_bits(p)));
    let result = match step {
        Step::Add => x + y,
        Step::Sub => x - y,
        Step::Mul => x * y,
        Step::Fma => x * y + z,
    };
    let normal = f64::from(f32::MIN_POSITIVE)..f64::from(f32::MAX);
    normal.contains(&result.abs()).then(|| result.to_bits() & (2 * HALF - 1))
}
