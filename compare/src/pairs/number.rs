//! Exact numbers: whole counts of 2^-298, as every sum and every product of two finite patterns is one.
use crate::pattern::{exponent_field, FRACTION, SIGN};
use std::cmp::Ordering;

const LIMBS: usize = 9;

/// The place of 1, in bits above 2^-298.
pub const ONE: u32 = 298;

/// A count of 2^-298, lowest limb first. A product is below 2^256, which is 2^554 of them; 576 bits hold it.
#[derive(Clone, Copy, PartialEq, Eq)]
pub struct Magnitude([u64; LIMBS]);

impl Magnitude {
    pub const ZERO: Magnitude = Magnitude([0; LIMBS]);

    /// count * 2^place.
    pub fn at(count: u64, place: u32) -> Magnitude {
        let mut limbs = [0; LIMBS];
        let shifted = u128::from(count) << (place % 64);
        let lowest = (place / 64) as usize;
        limbs[lowest] = shifted as u64;
        limbs[lowest + 1] = (shifted >> 64) as u64;
        Magnitude(limbs)
    }

    /// The places of the lowest and of the highest bit that is set. A zero has none.
    pub fn places(&self) -> Option<(u32, u32)> {
        let lowest = self.0.iter().position(|&limb| limb != 0)?;
        let highest = self.0.iter().rposition(|&limb| limb != 0)?;
        let low = 64 * lowest as u32 + self.0[lowest].trailing_zeros();
        Some((low, 64 * highest as u32 + 63 - self.0[highest].leading_zeros()))
    }

    pub fn plus(&self, other: &Magnitude) -> Magnitude {
        let (mut sum, mut carry) = ([0; LIMBS], false);
        for (i, limb) in sum.iter_mut().enumerate() {
            let (part, over) = self.0[i].overflowing_add(other.0[i]);
            let (whole, again) = part.overflowing_add(u64::from(carry));
            (*limb, carry) = (whole, over || again);
        }
        assert!(!carry, "a sum of two numbers fits");
        Magnitude(sum)
    }

    /// What is left when `smaller` is taken away.
    pub fn minus(&self, smaller: &Magnitude) -> Magnitude {
        let (mut left, mut borrow) = ([0; LIMBS], false);
        for (i, limb) in left.iter_mut().enumerate() {
            let (part, under) = self.0[i].overflowing_sub(smaller.0[i]);
            let (whole, again) = part.overflowing_sub(u64::from(borrow));
            (*limb, borrow) = (whole, under || again);
        }
        assert!(!borrow, "the smaller is taken from the larger");
        Magnitude(left)
    }
}

impl PartialOrd for Magnitude {
    fn partial_cmp(&self, other: &Magnitude) -> Option<Ordering> {
        Some(self.cmp(other))
    }
}

impl Ord for Magnitude {
    fn cmp(&self, other: &Magnitude) -> Ordering {
        self.0.iter().rev().cmp(other.0.iter().rev())
    }
}

/// A magnitude with a sign. The sign of a zero says nothing.
#[derive(Clone, Copy)]
pub struct Number {
    pub negative: bool,
    pub magnitude: Magnitude,
}

impl Number {
    /// What a finite pattern stands for.
    pub fn of(pattern: u32) -> Number {
        let (significand, place) = parts(pattern);
        Number { negative: pattern & SIGN != 0, magnitude: Magnitude::at(significand, place) }
    }

    pub fn sum(&self, other: &Number) -> Number {
        let (a, b) = (&self.magnitude, &other.magnitude);
        if self.negative == other.negative {
            Number { negative: self.negative, magnitude: a.plus(b) }
        } else if a >= b {
            Number { negative: self.negative, magnitude: a.minus(b) }
        } else {
            Number { negative: other.negative, magnitude: b.minus(a) }
        }
    }

    pub fn opposite(&self) -> Number {
        Number { negative: !self.negative, magnitude: self.magnitude }
    }

    /// The product of what two finite patterns stand for.
    pub fn product(x: u32, y: u32) -> Number {
        let ((a, i), (b, j)) = (parts(x), parts(y));
        // Each place is counted from 2^-298, so that one of the two counts is taken off.
        Number { negative: (x ^ y) & SIGN != 0, magnitude: Magnitude::at(a * b, i + j - ONE) }
    }
}

/// A finite pattern's significand and the place of its last bit, 2^-149 where the exponent field is 0 or 1.
fn parts(pattern: u32) -> (u64, u32) {
    let fraction = u64::from(pattern & FRACTION);
    match exponent_field(pattern) as u32 {
        0 => (fraction, ONE - 149),
        field => (fraction + (1 << 23), ONE - 149 + field - 1),
    }
}
