//! Random questions for mul.
use crate::pattern::{exact, exponent_field, is_finite, moved, LARGEST};
use crate::questions::Shape;
use crate::random::Random;
use crate::special;
use crate::step::Question;
use crate::sums::number;

pub fn question(shape: Shape, r: &mut Random) -> Question {
    match shape {
        Shape::Uniform => Question::two(r.pattern(), r.pattern()),
        Shape::Near => near(r),
        Shape::Cancelling => beside_power(r),
        Shape::Halfway => halfway(r),
        Shape::Subnormal => subnormal(r),
        Shape::Overflow => overflow(r),
        Shape::Special => Question::two(special::pattern(r), special::pattern(r)),
    }
}

/// Exponents whose sum stays in range: every product is normal.
pub fn near(r: &mut Random) -> Question {
    let (first, second) = (r.within(66, 188), r.within(66, 188));
    Question::two(number(r, first), number(r, second))
}

/// A number times about its reciprocal: the product's bits carry over, or just do not.
fn beside_power(r: &mut Random) -> Question {
    let exponent = r.within(40, 214);
    let x = number(r, exponent);
    let reciprocal = moved((1.0 / f32::from_bits(x)).to_bits(), i64::from(r.within(-3, 3)));
    // The reciprocal is normal and stays so: only its exponent is moved.
    let shift = r.within(-38, 38).clamp(1 - exponent_field(reciprocal), 254 - exponent_field(reciprocal));
    Question::two(x, reciprocal.wrapping_add((shift as u32) << 23))
}

pub fn halfway(r: &mut Random) -> Question {
    if r.once_in(3) {
        beside_a_tie(r)
    } else {
        at_a_tie(r)
    }
}

/// Odd factors whose product has 25 bits, so that the last one is half a unit; or whose last bit is
/// half the smallest number. One of them may then be moved by a unit.
fn at_a_tie(r: &mut Random) -> Question {
    loop {
        let first = r.within(1, 24) as u32;
        let (second, last) = if r.once_in(4) {
            (r.within(1, 25 - first as i32) as u32, -150)
        } else {
            let second = r.within(25, 26) as u32 - first;
            (second.clamp(1, 24), r.within(-149, 103))
        };
        // The exponents of the factors' last bits, which add up to the product's.
        let share = r.within(-149, 104);
        let (a, b) = (r.odd(first), r.odd(second));
        let x = exact(r.sign(), a, share);
        let y = exact(r.sign(), b, last - share);
        if let (Some(x), Some(y)) = (x, y) {
            return Question::two(moved(x, i64::from(r.within(-1, 1))), y);
        }
    }
}

/// A product one unit of its 47 or 48 bits from a tie: the second factor is that, divided by the
/// first modulo a power of two.
fn beside_a_tie(r: &mut Random) -> Question {
    loop {
        let dropped = r.within(23, 24) as u32;
        let first = r.odd(24);
        let beside = if r.once_in(2) { (1 << (dropped - 1)) + 1 } else { (1 << (dropped - 1)) - 1 };
        let low = inverse(first).wrapping_mul(beside) & ((1 << dropped) - 1);
        let second = low | (1 << 23);
        let bits = 64 - (first * second).leading_zeros();
        // Setting the top bit changes the product's low bits only where 24 of them are dropped.
        let kept = second == low || dropped == 23;
        let (i, j) = (r.within(-149, 104), r.within(-149, 104));
        if let (Some(x), Some(y)) = (exact(r.sign(), first, i), exact(r.sign(), second, j)) {
            // In range, so that the product is normal and drops as many bits as meant.
            if kept && bits == dropped + 24 && (-173..=80).contains(&(i + j)) {
                return Question::two(x, y);
            }
        }
    }
}

/// The inverse of an odd number modulo 2^64. Each turn of Newton's iteration doubles the right bits: 3, 6, .. 96.
pub fn inverse(odd: u64) -> u64 {
    let mut inverse = odd;
    for _ in 0..5 {
        inverse = inverse.wrapping_mul(2u64.wrapping_sub(odd.wrapping_mul(inverse)));
    }
    inverse
}

/// Products from below half the smallest number to the smallest normal ones, some of a subnormal factor.
pub fn subnormal(r: &mut Random) -> Question {
    if r.once_in(4) {
        let bits = r.within(1, 23) as u32;
        let x = exact(r.sign(), r.bits(bits), -149).expect("below 2^23");
        let exponent = r.within(100, 160);
        return Question::two(x, number(r, exponent));
    }
    // The product's exponent field, were it not limited: 1 is the smallest normal one.
    let target = r.within(-26, 3);
    let first = r.within(1, 100);
    let (x, y) = (number(r, first), number(r, target + 127 - first));
    if r.once_in(2) {
        Question::two(x, y)
    } else {
        Question::two(y, x)
    }
}

/// A number times about the largest one's quotient by it; or products of about the largest exponent.
pub fn overflow(r: &mut Random) -> Question {
    let exponent = r.within(129, 254);
    let x = number(r, exponent);
    if r.once_in(2) {
        let quotient = (f32::from_bits(LARGEST) / f32::from_bits(x)).to_bits();
        if is_finite(quotient) {
            return Question::two(x, moved(quotient, i64::from(r.within(-3, 3))));
        }
    }
    let target = r.within(253, 256);
    // Factors of 12 bits have a product of 24, which lacks nothing but room.
    let short = if r.once_in(4) { !0xFFF } else { !0 };
    Question::two(x & short, number(r, target + 127 - exponent) & short)
}
