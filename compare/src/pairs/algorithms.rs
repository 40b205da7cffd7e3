//! Algorithms 7 and 9 of the paper on augmented operations on the processor's floats: another reference, timed as well.
//!
//! They follow the paper's lines, without flags. Algorithm 9 leaves the sign of a zero second open: the lines
//! that the paper adds to algorithm 8 for it are added here too. Its edge remainder is 2^102, not 2^104 as printed.
use super::pair::{Flags, Operation, Pair};
use crate::pattern::{is_nan, SIGN};
use crate::processor::Processor;
use crate::step::{Question, Step};

/// 1 - 2^-24.
const PSI: f32 = f32::from_bits(0x3F7F_FFFF);
/// 2 - 2^-23.
const KAPPA: f32 = f32::from_bits(0x3FFF_FFFF);
/// 2^24, 2^-24 and 2^48.
const UP: f32 = f32::from_bits(0x4B80_0000);
const DOWN: f32 = f32::from_bits(0x3380_0000);
const UP_TWICE: f32 = f32::from_bits(0x5780_0000);
/// 2^127 and 2^102: half the overflow edge, 2^127 - 2^102, is rounded to the one and leaves the other.
const EDGE: f32 = f32::from_bits(0x7F00_0000);
const EDGE_REST: f32 = f32::from_bits(0x7280_0000);
/// 2^-102, 2^-125, 2^-126 and 2^-149.
const SHORT: f32 = f32::from_bits(0x0C80_0000);
const TINY: f32 = f32::from_bits(0x0100_0000);
const SMALLEST_NORMAL: f32 = f32::from_bits(0x0080_0000);
const SMALLEST: f32 = f32::from_bits(0x0000_0001);

// Not inlined, so that each is called as the library's functions are.
#[inline(never)]
pub extern "C" fn sum(x: u32, y: u32) -> Pair {
    patterns(augmented_addition(f32::from_bits(x), f32::from_bits(y)))
}

#[inline(never)]
pub extern "C" fn difference(x: u32, y: u32) -> Pair {
    patterns(augmented_addition(f32::from_bits(x), f32::from_bits(y ^ SIGN)))
}

/// With the fma instruction.
///
/// # Safety
/// The processor has the feature `fma`.
#[inline(never)]
#[target_feature(enable = "fma")]
pub unsafe extern "C" fn product(x: u32, y: u32) -> Pair {
    patterns(augmented_multiplication(f32::from_bits(x), f32::from_bits(y)))
}

/// With the C library's `fmaf`.
#[inline(never)]
pub extern "C" fn product_called(x: u32, y: u32) -> Pair {
    patterns(augmented_multiplication(f32::from_bits(x), f32::from_bits(y)))
}

/// First and second. Where the algorithms' first is NaN, it is the one that the processor's sum or product gives, and so is
/// a NaN second: theirs depend on the order in which the compiler puts operands.
pub fn answer(processor: Processor, operation: Operation, x: u32, y: u32) -> (u32, u32) {
    let pair = match operation {
        Operation::Sum => sum(x, y),
        Operation::Difference => difference(x, y),
        // SAFETY: `Processor::detect` saw the feature.
        Operation::Product if processor.fused_instruction => unsafe { product(x, y) },
        Operation::Product => product_called(x, y),
    };
    if !is_nan(pair.first) {
        return pair.patterns();
    }
    let nan = match operation {
        Operation::Sum => processor.answer(Step::Add, Question::two(x, y)),
        Operation::Difference => processor.answer(Step::Add, Question::two(x, y ^ SIGN)),
        Operation::Product => processor.answer(Step::Mul, Question::two(x, y)),
    };
    (nan, if is_nan(pair.second) { nan } else { pair.second })
}

#[inline(always)]
fn patterns((first, second): (f32, f32)) -> Pair {
    Pair { first: first.to_bits(), second: second.to_bits(), flags: Flags::NONE }
}

/// Algorithm 1, for |x| >= |y|.
#[inline(always)]
fn fast_two_sum(x: f32, y: f32) -> (f32, f32) {
    let a = x + y;
    let v = a - x;
    (a, y - v)
}

/// Algorithm 3.
#[inline(always)]
fn fast_two_mult(x: f32, y: f32) -> (f32, f32) {
    let a = x * y;
    (a, x.mul_add(y, -a))
}

/// Algorithm 5: from ties to even to ties to the smaller magnitude.
#[inline(always)]
fn recomposed(a: f32, b: f32) -> (f32, f32) {
    let z = PSI * a;
    let d = z - a;
    if 2.0 * b == d {
        (z, -b)
    } else {
        (a, b)
    }
}

/// Where second is zero, its sign is first's.
#[inline(always)]
fn zero_finished((first, second): (f32, f32)) -> (f32, f32) {
    if second == 0.0 {
        (first, 0.0 * first)
    } else {
        (first, second)
    }
}

/// Where `a` is infinite: half the exact result, as it is rounded and what that leaves, tells the edge.
#[inline(always)]
fn at_overflow(a: f32, (half, rest): (f32, f32)) -> (f32, f32) {
    if (half == EDGE && rest == -EDGE_REST) || (half == -EDGE && rest == EDGE_REST) {
        (KAPPA * half, -2.0 * rest)
    } else {
        (a, a)
    }
}

/// Algorithm 7.
#[inline(always)]
fn augmented_addition(x: f32, y: f32) -> (f32, f32) {
    let (x, y) = if y.abs() > x.abs() { (y, x) } else { (x, y) };
    let (a, b) = fast_two_sum(x, y);
    let (first, second) = recomposed(a, b);
    if second == 0.0 {
        (first, 0.0 * first)
    } else if a.abs() == f32::INFINITY {
        at_overflow(a, fast_two_sum(0.5 * x, 0.5 * y))
    } else {
        (first, second)
    }
}

/// Algorithm 9.
#[inline(always)]
fn augmented_multiplication(x: f32, y: f32) -> (f32, f32) {
    let a = x * y;
    if a.abs() == f32::INFINITY {
        at_overflow(a, fast_two_mult(0.5 * x, y))
    } else if a.abs() <= SHORT {
        if a == 0.0 {
            (a, a)
        } else if a.abs() < TINY {
            tiny_product(x, y, a)
        } else {
            short_product(x, y)
        }
    } else {
        zero_finished(recomposed(a, x.mul_add(y, -a)))
    }
}

/// Lines 17 to 25: second is a zero, and first is corrected where the product is a tie that went up.
#[inline(always)]
fn tiny_product(x: f32, y: f32, a: f32) -> (f32, f32) {
    let (t1, t2) = fast_two_mult(UP_TWICE * x, y);
    let t3 = t1 - UP_TWICE * a;
    let z = t2 + t3;
    let first = if z == -SHORT.copysign(a) && z - t3 == t2 { a - SMALLEST.copysign(a) } else { a };
    (first, 0.0 * first)
}

/// Lines 27 to 34: the pair of 2^24 times the product, brought down, and second corrected at a tie.
#[inline(always)]
fn short_product(x: f32, y: f32) -> (f32, f32) {
    let (a, b) = fast_two_mult(UP * x, y);
    let (high, low) = recomposed(a, b);
    let second = DOWN * low;
    let went_up = second != 0.0 && UP * second - low == SMALLEST_NORMAL.copysign(second);
    let second = if went_up { second - SMALLEST.copysign(second) } else { second };
    zero_finished((DOWN * high, second))
}
