//! Random questions for add. Those for sub are the same with the second sign turned.
use crate::pattern::{exact, fields, moved, power, FRACTION, LARGEST, SIGN};
use crate::questions::Shape;
use crate::random::Random;
use crate::special;
use crate::step::Question;

pub fn question(shape: Shape, r: &mut Random) -> Question {
    match shape {
        Shape::Uniform => Question::two(r.pattern(), r.pattern()),
        Shape::Near => near(r),
        Shape::Cancelling => cancelling(r),
        Shape::Halfway => halfway(r),
        Shape::Subnormal => subnormal(r),
        Shape::Overflow => overflow(r),
        Shape::Special => Question::two(special::pattern(r), special::pattern(r)),
    }
}

/// A finite number with the given exponent field.
pub fn number(r: &mut Random, exponent: i32) -> u32 {
    fields(r.sign(), exponent, r.pattern())
}

/// A gap of 26 and more leaves only a trace of the smaller operand.
fn near(r: &mut Random) -> Question {
    let exponent = r.within(0, 254);
    let gap = r.within(-30, 30);
    Question::two(number(r, exponent), number(r, exponent + gap))
}

fn cancelling(r: &mut Random) -> Question {
    let exponent = r.within(0, 254);
    let x = number(r, exponent);
    Question::two(x, beside(r, x ^ SIGN))
}

/// A number close to `x`: a few units away, or with some of its last bits drawn anew.
pub fn beside(r: &mut Random, x: u32) -> u32 {
    if r.once_in(2) {
        moved(x, i64::from(r.within(-8, 8)))
    } else {
        let anew = r.within(1, 24) as u32;
        (x ^ r.bits(anew) as u32).min(x & SIGN | LARGEST)
    }
}

/// An odd count of half units of `x`, to 24 bits, which is then moved by at most one of its own units.
fn halfway(r: &mut Random) -> Question {
    let exponent = r.within(2, 254);
    let x = number(r, exponent);
    let bits = r.within(1, 24) as u32;
    // The last bit of x is worth 2^(exponent - 150), and 2^-149 is the least half of that.
    let y = exact(r.sign(), r.odd(bits), exponent - 151).expect("24 bits in range");
    Question::two(x, moved(y, i64::from(r.within(-1, 1))))
}

fn subnormal(r: &mut Random) -> Question {
    let (first, second) = (r.within(0, 2), r.within(0, 27));
    let (x, y) = (number(r, first), number(r, second));
    if r.once_in(2) {
        Question::two(x, y)
    } else {
        Question::two(y, x)
    }
}

/// Two large numbers, half of them with nearly all bits set; or the largest and about half its unit.
fn overflow(r: &mut Random) -> Question {
    if r.once_in(3) {
        let sign = r.sign() << 31;
        let x = sign | (LARGEST - r.bits(3) as u32);
        let half = power(r.within(102, 105));
        return Question::two(x, moved(sign | half, i64::from(r.within(-4, 4))));
    }
    let (first, second) = (r.within(252, 254), r.within(228, 254));
    let (x, y) = (large(r, first), large(r, second));
    // Mostly of one sign: of two signs, they cannot pass the border.
    if r.once_in(8) {
        Question::two(x, y)
    } else {
        Question::two(x, (y & !SIGN) | (x & SIGN))
    }
}

pub fn large(r: &mut Random, exponent: i32) -> u32 {
    let fraction = if r.once_in(2) { FRACTION - r.bits(4) as u32 } else { r.pattern() };
    fields(r.sign(), exponent, fraction)
}
