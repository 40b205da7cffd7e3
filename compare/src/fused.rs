//! Random questions for fma: a product, and a third number that meets it.
use crate::pattern::{exact, exponent_field, fields, magnitude, moved, power, FRACTION, SIGN};
use crate::questions::Shape;
use crate::random::Random;
use crate::step::Question;
use crate::sums::{beside, large, number};
use crate::{processor, products, special};

pub fn question(shape: Shape, r: &mut Random) -> Question {
    match shape {
        Shape::Uniform => Question::three(r.pattern(), r.pattern(), r.pattern()),
        Shape::Near => near(r),
        Shape::Cancelling => cancelling(r),
        Shape::Halfway => halfway(r),
        Shape::Subnormal => subnormal(r),
        Shape::Overflow => overflow(r),
        Shape::Special => Question::three(special::pattern(r), special::pattern(r), special::pattern(r)),
    }
}

/// A product has 48 bits: a gap of about 50 leaves only a trace of either.
fn near(r: &mut Random) -> Question {
    let q = products::near(r);
    let gap = r.within(-52, 52);
    let z = number(r, exponent_field(q.x) + exponent_field(q.y) - 127 + gap);
    Question::three(q.x, q.y, z)
}

/// z is about the rounded product with its sign turned: what is left are the bits that the rounding drops.
fn cancelling(r: &mut Random) -> Question {
    let q = products::near(r);
    // Factors of 12 bits have an exact product, which can cancel to a zero.
    let short = if r.once_in(4) { !0xFFF } else { !0 };
    let (x, y) = (q.x & short, q.y & short);
    let product = processor::mul(x, y);
    let z = if r.once_in(3) { product ^ SIGN } else { beside(r, product ^ SIGN) };
    Question::three(x, y, z)
}

fn halfway(r: &mut Random) -> Question {
    match r.within(0, 2) {
        0 => decided_by_a_trace(r),
        1 => completed(r),
        _ => half_units(r),
    }
}

/// A product at a tie or beside it, and a third number too small to do more than decide it.
fn decided_by_a_trace(r: &mut Random) -> Question {
    let q = products::halfway(r);
    let z = match r.within(0, 2) {
        0 => r.sign() << 31,
        1 => (r.sign() << 31) | 1,
        _ => {
            let exponent = exponent_field(q.x) + exponent_field(q.y) - 127 - r.within(26, 60);
            number(r, exponent)
        }
    };
    Question::three(q.x, q.y, z)
}

/// A product of 47 or 48 bits, and what it lacks to a tie: 24 bits at most, moved by at most one unit.
fn completed(r: &mut Random) -> Question {
    loop {
        let (a, b) = (r.odd(24), r.odd(24));
        let product = a * b;
        let half = 1u64 << (64 - product.leading_zeros() - 25);
        let tie = ((product / half) | 1) * half;
        let (turned, lacking) = if tie >= product { (0, tie - product) } else { (1, product - tie) };
        let lacking = lacking.saturating_add_signed(i64::from(r.within(-1, 1)));
        let (first, second) = (r.within(-140, 100), r.within(-140, 100));
        let (s, t) = (r.sign(), r.sign());
        let x = exact(s, a, first);
        let y = exact(t, b, second);
        let z = exact(s ^ t ^ turned, lacking, first + second);
        if let (Some(x), Some(y), Some(z)) = (x, y, z) {
            return Question::three(x, y, z);
        }
    }
}

/// A product that is an odd count of half units of z, one factor moved by at most one of its units.
fn half_units(r: &mut Random) -> Question {
    loop {
        let exponent = r.within(1, 254);
        let (first, second) = (r.within(1, 23) as u32, r.within(1, 24) as u32);
        // Small counts mostly, so that z stays the larger and keeps its unit.
        let second = second.min(25 - first);
        let (a, b) = (r.odd(first), r.odd(second));
        let share = r.within(-149, 104);
        let x = exact(r.sign(), a, share);
        let y = exact(r.sign(), b, exponent - 151 - share);
        if let (Some(x), Some(y)) = (x, y) {
            let x = moved(x, i64::from(r.within(-1, 1)));
            return Question::three(x, y, number(r, exponent));
        }
    }
}

fn subnormal(r: &mut Random) -> Question {
    let q = products::subnormal(r);
    let z = match r.within(0, 3) {
        0 => fields(r.sign(), 0, r.bits(3) as u32),
        1 => number(r, 0),
        2 => beside(r, processor::mul(q.x, q.y) ^ SIGN),
        _ => {
            let exponent = r.within(0, 50);
            number(r, exponent)
        }
    };
    Question::three(q.x, q.y, z)
}

/// A product about the border, and z about the half unit there, or as large as the product.
fn overflow(r: &mut Random) -> Question {
    let q = products::overflow(r);
    let z = match r.within(0, 2) {
        0 => moved((r.sign() << 31) | power(r.within(102, 105)), i64::from(r.within(-4, 4))),
        1 => {
            let exponent = r.within(200, 254);
            large(r, exponent)
        }
        _ => {
            // Of the other sign than the product, to come back from beyond the border.
            let turned = (q.x ^ q.y ^ SIGN) & SIGN;
            let exponent = r.within(251, 254);
            turned | magnitude(fields(0, exponent, r.pattern() & FRACTION))
        }
    };
    Question::three(q.x, q.y, z)
}
