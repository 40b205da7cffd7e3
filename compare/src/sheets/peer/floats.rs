//! The step sheet on the processor's floats, each line written as it is worked.
use super::question::{Kind, Question};
use super::text::{Operation, Text};
use crate::pattern::{is_finite, is_nan, magnitude, power, INFINITY, NAN, QUIET, SIGN};

const PSI: u32 = 0x3F7F_FFFF;
const TWO: u32 = 0x4000_0000;
const MINUS_TWO: u32 = 0xC000_0000;
const HALF: u32 = 0x3F00_0000;
const KAPPA: u32 = 0x3FFF_FFFF;
const UP: u32 = 0x4B80_0000;
const UP_TWICE: u32 = 0x5780_0000;
const DOWN: u32 = 0x3380_0000;

/// First and second.
#[inline(always)]
pub fn sheet(question: &Question, text: &mut Text) -> (u32, u32) {
    match question.kind {
        Kind::Sum => sum(question.x, question.y, text),
        Kind::Dif => sum(question.x, question.y ^ SIGN, text),
        Kind::Mul => product(question.x, question.y, text),
    }
}

/// From the operands and the pair. A product in binary64 is exact, and so is what first leaves of it. Only one
/// below 2^-101 has bits below 2^-149, which second may have lost.
#[inline(always)]
pub fn flags(question: &Question, first: u32, second: u32) -> &'static [u8] {
    let (x, y) = (question.x, question.y);
    if is_nan(first) {
        let invalid = signals(x) || signals(y) || !(is_nan(x) || is_nan(y));
        return if invalid { b"I" } else { b"-" };
    }
    if magnitude(first) == INFINITY {
        return if is_finite(x) && is_finite(y) { b"OX" } else { b"-" };
    }
    if question.kind == Kind::Mul && magnitude(first) < power(-100) {
        let [x, y, first, second] = [x, y, first, second].map(|p| f64::from(f32::from_bits(p)));
        if x * y - first != second {
            return b"UX";
        }
    }
    b"-"
}

#[inline(always)]
fn signals(x: u32) -> bool {
    is_nan(x) && x & QUIET == 0
}

/// The processor's number. Which NaN it gives depends on how the compiler puts the operands, so that NaN goes by the rule.
#[inline(always)]
pub fn result<const N: usize>(value: f32, operands: [u32; N]) -> u32 {
    if value.is_nan() {
        nan_of(&operands)
    } else {
        value.to_bits()
    }
}

#[cold]
fn nan_of(operands: &[u32]) -> u32 {
    operands.iter().find(|&&operand| is_nan(operand)).map_or(NAN, |nan| nan | QUIET)
}

/// 2 where an operand is not finite; else by whether the result is exact.
#[inline(always)]
pub fn mark<const N: usize>(operands: [u32; N], is_exact: impl Fn() -> bool) -> u32 {
    if !operands.into_iter().all(is_finite) {
        2
    } else {
        u32::from(!is_exact())
    }
}

/// In binary64, where a product of two such numbers is exact.
#[inline(always)]
pub fn wide(pattern: u32) -> f64 {
    f64::from(f32::from_bits(pattern))
}

/// Whether a + b is what the result stands for. A sum that was rounded leaves something of the smaller one.
#[inline(always)]
pub fn is_sum(a: f64, b: f64, result: u32) -> bool {
    let sum = a + b;
    sum == wide(result) && sum - a == b && sum - b == a
}

#[inline(always)]
fn add(text: &mut Text, x: u32, y: u32) -> u32 {
    let sum = result(f32::from_bits(x) + f32::from_bits(y), [x, y]);
    text.two(Operation::Add, [x, y], sum, mark([x, y], || is_sum(wide(x), wide(y), sum)));
    sum
}

#[inline(always)]
fn sub(text: &mut Text, x: u32, y: u32) -> u32 {
    let difference = result(f32::from_bits(x) - f32::from_bits(y), [x, y]);
    text.two(Operation::Sub, [x, y], difference, mark([x, y], || is_sum(wide(x), -wide(y), difference)));
    difference
}

#[inline(always)]
fn mul(text: &mut Text, x: u32, y: u32) -> u32 {
    let product = result(f32::from_bits(x) * f32::from_bits(y), [x, y]);
    text.two(Operation::Mul, [x, y], product, mark([x, y], || wide(x) * wide(y) == wide(product)));
    product
}

/// x * y - a.
#[inline(always)]
fn rest(text: &mut Text, x: u32, y: u32, a: u32) -> u32 {
    let z = a ^ SIGN;
    let fused = result(f32::from_bits(x).mul_add(f32::from_bits(y), f32::from_bits(z)), [x, y, z]);
    let mark = mark([x, y, z], || is_sum(wide(x) * wide(y), wide(z), fused));
    text.three(Operation::Fma, [x, y, z], fused, mark);
    fused
}

#[inline(always)]
fn equal(a: u32, b: u32) -> bool {
    f32::from_bits(a) == f32::from_bits(b)
}

#[inline(always)]
fn recomposed(text: &mut Text, a: u32, b: u32) -> (u32, u32) {
    let z = mul(text, PSI, a);
    let d = sub(text, z, a);
    let e = mul(text, TWO, b);
    if equal(e, d) {
        (z, b ^ SIGN)
    } else {
        (a, b)
    }
}

#[inline(always)]
fn zero_finished(text: &mut Text, (first, second): (u32, u32)) -> (u32, u32) {
    if magnitude(second) == 0 {
        (first, mul(text, 0, first))
    } else {
        (first, second)
    }
}

#[inline(always)]
fn fast_two_sum(text: &mut Text, x: u32, y: u32) -> (u32, u32) {
    let a = add(text, x, y);
    (a, left_of_sum(text, x, y, a))
}

#[inline(always)]
fn left_of_sum(text: &mut Text, x: u32, y: u32, a: u32) -> u32 {
    let v = sub(text, a, x);
    sub(text, y, v)
}

#[inline(always)]
fn at_overflow(text: &mut Text, a: u32, (half, left): (u32, u32)) -> (u32, u32) {
    if magnitude(half) == power(127) && left == (half & SIGN ^ SIGN) | power(102) {
        (mul(text, KAPPA, half), mul(text, MINUS_TWO, left))
    } else {
        (a, a)
    }
}

#[inline(always)]
fn sum(x: u32, y: u32, text: &mut Text) -> (u32, u32) {
    let (x, y) = if f32::from_bits(y).abs() > f32::from_bits(x).abs() { (y, x) } else { (x, y) };
    let a = add(text, x, y);
    if is_nan(a) {
        return (a, a);
    }
    let b = left_of_sum(text, x, y, a);
    let pair = recomposed(text, a, b);
    if magnitude(a) == INFINITY {
        return infinite_sum(text, x, y, a);
    }
    zero_finished(text, pair)
}

#[cold]
fn infinite_sum(text: &mut Text, x: u32, y: u32, a: u32) -> (u32, u32) {
    let (x, y) = (mul(text, HALF, x), mul(text, HALF, y));
    let halved = fast_two_sum(text, x, y);
    at_overflow(text, a, halved)
}

#[inline(always)]
fn product(x: u32, y: u32, text: &mut Text) -> (u32, u32) {
    let a = mul(text, x, y);
    if magnitude(a) == INFINITY {
        let h = mul(text, HALF, x);
        let half = mul(text, h, y);
        let left = rest(text, h, y, half);
        at_overflow(text, a, (half, left))
    } else if magnitude(a) == 0 || is_nan(a) {
        (a, a)
    } else if magnitude(a) < power(-125) {
        tiny(x, y, a, text)
    } else if magnitude(a) <= power(-102) {
        middle(x, y, text)
    } else {
        let b = rest(text, x, y, a);
        let pair = recomposed(text, a, b);
        zero_finished(text, pair)
    }
}

#[inline(always)]
fn tiny(x: u32, y: u32, a: u32, text: &mut Text) -> (u32, u32) {
    let m = mul(text, UP, x);
    let n = mul(text, UP, y);
    let t1 = mul(text, m, n);
    let t2 = rest(text, m, n, t1);
    let g = mul(text, UP_TWICE, a);
    let t3 = sub(text, t1, g);
    let z = add(text, t2, t3);
    let w = sub(text, z, t3);
    let tie = z == (a & SIGN ^ SIGN) | power(-102) && equal(w, t2);
    let first = if tie { sub(text, a, a & SIGN | 1) } else { a };
    (first, mul(text, 0, first))
}

#[inline(always)]
fn middle(x: u32, y: u32, text: &mut Text) -> (u32, u32) {
    let m = mul(text, UP, x);
    let a = mul(text, m, y);
    let b = rest(text, m, y, a);
    let (high, low) = recomposed(text, a, b);
    let first = mul(text, DOWN, high);
    let beta = mul(text, DOWN, low);
    let g = mul(text, UP, beta);
    let r = sub(text, g, low);
    let tie = magnitude(beta) != 0 && r == beta & SIGN | power(-126);
    let second = if tie { sub(text, beta, beta & SIGN | 1) } else { beta };
    zero_finished(text, (first, second))
}
