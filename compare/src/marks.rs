//! The reference for the marks of steps: from the operands and the exact number alone. Nothing is rounded here.
use crate::pattern::{exponent_field, FRACTION, SIGN};
use crate::step::{Question, Step};

/// The result is the exact value.
pub const EXACT: u32 = 0;
/// Finite operands were rounded, or overflowed.
pub const ROUNDED: u32 = 1;
/// An operand is infinite or NaN.
pub const SPECIAL: u32 = 2;

pub fn mark(step: Step, q: Question) -> u32 {
    if !q.is_finite(step) {
        return SPECIAL;
    }
    let (x, y) = (Number::of(q.x), Number::of(q.y));
    let exact = match step {
        Step::Add => x.plus(y),
        Step::Sub => x.plus(Number::of(q.y ^ SIGN)),
        Step::Mul => Some(x.times(y)),
        Step::Fma => x.times(y).plus(Number::of(q.z)),
    };
    if exact.is_some_and(Number::is_held) {
        EXACT
    } else {
        ROUNDED
    }
}

/// count * 2^place. The count is odd, or 0.
#[derive(Clone, Copy)]
struct Number {
    count: i128,
    place: i32,
}

impl Number {
    /// What a finite pattern stands for.
    fn of(pattern: u32) -> Number {
        let fraction = i128::from(pattern & FRACTION);
        let (significand, place) = match exponent_field(pattern) {
            0 => (fraction, -149),
            field => (fraction + (1 << 23), field - 150),
        };
        Number { count: if pattern & SIGN == 0 { significand } else { -significand }, place }.odd()
    }

    fn odd(self) -> Number {
        if self.count == 0 {
            return Number { count: 0, place: 0 };
        }
        let even = self.count.trailing_zeros();
        Number { count: self.count >> even, place: self.place + even as i32 }
    }

    fn times(self, other: Number) -> Number {
        Number { count: self.count * other.count, place: self.place + other.place }
    }

    /// None where the last bits lie so far apart that 128 bits do not hold the sum. It is then an odd count of the lower place, since the
    /// other count is an even one there, and far above 2^24 of them: binary32 has no such number.
    fn plus(self, other: Number) -> Option<Number> {
        if self.count == 0 || other.count == 0 {
            return Some(if self.count == 0 { other } else { self });
        }
        let (low, high) = if self.place < other.place { (self, other) } else { (other, self) };
        let apart = high.place - low.place;
        // No count is above 2^48.
        (apart <= 76).then(|| Number { count: (high.count << apart) + low.count, place: low.place }.odd())
    }

    /// Whether binary32 has the very number: no more than 24 bits, none below 2^-149, none above 2^127.
    fn is_held(self) -> bool {
        let bits = 128 - self.count.unsigned_abs().leading_zeros() as i32;
        self.count == 0 || bits <= 24 && self.place >= -149 && self.place + bits <= 128
    }
}
