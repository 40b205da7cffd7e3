//! The reference for totals: a whole number, a count and the sign word, and the rules of R6 and R8 on them.
//!
//! It is written from the specification's words, to be believed rather than to be fast. A call turns the
//! words into a number, works on that, and turns it back. It shares no code with the model of the pairs.
use super::call::{Call, Reading};
use super::number::{Number, WORDS};
use crate::pattern::{exponent_field, is_finite, magnitude, FRACTION, INFINITY, SIGN};

/// The words of a total: its number, its count and the sign word.
pub const LENGTH: usize = OLD_LENGTH + 1;
/// The words that a total had before request 4: its number and its count.
pub const OLD_LENGTH: usize = WORDS + 1;
/// Which word is the sign word.
pub const ZERO_SIGN: usize = OLD_LENGTH;
/// The most terms that a total takes.
pub const MOST: u32 = 65_536;
/// The place of 1, in bits above 2^-298.
pub const ONE: u32 = 298;
/// The place of 2^-149, below which no pattern has bits.
pub const LAST: u32 = 149;
/// A term's magnitude is below 2 to this place.
pub const BOUND: u32 = 554;

#[derive(Clone, Copy, PartialEq, Eq, Debug)]
pub struct Total {
    /// A count of 2^-298.
    pub number: Number,
    /// The terms that are in it.
    pub count: u32,
    /// 0 while all of them have been -0, else 1. In words that no calls left it may be anything.
    pub sign_word: u32,
}

impl Total {
    pub const CLEARED: Total = Total { number: Number::ZERO, count: 0, sign_word: 0 };

    /// As so many terms leave it that were not all -0.
    pub fn new(number: Number, count: u32) -> Total {
        Total { number, count, sign_word: u32::from(count > 0) }
    }

    /// So many terms of -0.
    pub fn minus_zeros(count: u32) -> Total {
        Total { count, ..Total::CLEARED }
    }

    /// What 22 words hold.
    pub fn of(words: &[u32]) -> Total {
        Total { sign_word: words[ZERO_SIGN], ..Total::of_old(&words[..OLD_LENGTH]) }
    }

    /// What 21 words hold, carried over: of what the terms were only their sum and their count is known.
    pub fn of_old(words: &[u32]) -> Total {
        assert_eq!(words.len(), OLD_LENGTH, "an old total has so many");
        Total::new(Number::of_words(&words[..WORDS]), words[WORDS])
    }

    pub fn words(&self) -> Vec<u32> {
        let mut words = self.old_words();
        words.push(self.sign_word);
        words
    }

    /// Number and count.
    pub fn old_words(&self) -> Vec<u32> {
        let mut words = self.number.words().to_vec();
        words.push(self.count);
        words
    }

    pub fn fits(&self) -> bool {
        let sign_fits = match self.sign_word {
            0 => self.number == Number::ZERO,
            1 => self.count > 0,
            _ => false,
        };
        sign_fits && self.fits_as_old()
    }

    /// By number and count alone.
    pub fn fits_as_old(&self) -> bool {
        self.count <= MOST && self.number.magnitude() <= Number::at(u64::from(self.count), BOUND)
    }

    pub fn with(&self, term: &Term) -> Total {
        let all_minus_zero = self.sign_word == 0 && term.minus_zero;
        Total {
            number: self.number.plus(&term.number),
            count: self.count + 1,
            sign_word: u32::from(!all_minus_zero),
        }
    }

    pub fn joined(&self, other: &Total) -> Total {
        let all_minus_zero = self.sign_word == 0 && other.sign_word == 0;
        Total {
            number: self.number.plus(&other.number),
            count: self.count + other.count,
            sign_word: u32::from(!all_minus_zero),
        }
    }

    pub fn reading(&self) -> Reading {
        if self.number == Number::ZERO && self.count > 0 && self.sign_word == 0 {
            return Reading::of(SIGN, SIGN);
        }
        let first = nearest(&self.number);
        if !is_finite(first) {
            return Reading::of(first, first);
        }
        let second = nearest(&self.number.minus(&value(first)));
        let second = if magnitude(second) == 0 { first & SIGN } else { second };
        Reading::of(first, second)
    }
}

/// The answer to a call; where it is carried out, the words are what it leaves in them.
pub fn answer(call: Call, words: &mut [u32]) -> Reading {
    if words.len() != LENGTH {
        return Reading::refused(5);
    }
    if call == Call::Clear {
        words.copy_from_slice(&Total::CLEARED.words());
        return Reading::DONE;
    }
    let total = Total::of(words);
    if !total.fits() {
        return Reading::refused(6);
    }
    if call == Call::Read {
        return total.reading();
    }
    if !call.operands().into_iter().all(is_finite) {
        return Reading::refused(7);
    }
    if total.count == MOST {
        return Reading::refused(8);
    }
    words.copy_from_slice(&total.with(&Term::of(call)).words());
    Reading::DONE
}

/// The refusal of joining a second total to the first; where it is 0, the first's words are what that leaves in them.
pub fn join(first: &mut [u32], second: &[u32]) -> u32 {
    for words in [&*first, second] {
        if words.len() != LENGTH {
            return 5;
        }
        if !Total::of(words).fits() {
            return 6;
        }
    }
    let (total, other) = (Total::of(first), Total::of(second));
    if total.count + other.count > MOST {
        return 12;
    }
    first.copy_from_slice(&total.joined(&other).words());
    0
}

/// The refusal of carrying an old total over; where it is 0, the new words are what that leaves in them.
pub fn carry_over(old: &[u32], new: &mut [u32]) -> u32 {
    if old.len() != OLD_LENGTH || new.len() != LENGTH {
        return 5;
    }
    let total = Total::of_old(old);
    if !total.fits_as_old() {
        return 6;
    }
    new.copy_from_slice(&total.words());
    0
}

/// What an adding call with finite operands adds.
#[derive(Clone, Copy)]
pub struct Term {
    pub number: Number,
    /// It is a zero, and its sign is minus.
    pub minus_zero: bool,
}

impl Term {
    pub fn pattern(x: u32) -> Term {
        Term { number: value(x), minus_zero: x == SIGN }
    }

    pub fn of(call: Call) -> Term {
        match call {
            Call::Pattern(x) => Term::pattern(x),
            Call::Product(x, y) => {
                let zero = magnitude(x) == 0 || magnitude(y) == 0;
                Term { number: product(x, y), minus_zero: zero && (x ^ y) & SIGN != 0 }
            }
            Call::Clear | Call::Read => unreachable!("these add nothing"),
        }
    }
}

/// What a finite pattern stands for.
pub fn value(x: u32) -> Number {
    let (significand, raised) = parts(x);
    signed(x, Number::at(significand, LAST + raised))
}

/// The product of what two finite patterns stand for.
fn product(x: u32, y: u32) -> Number {
    let ((a, i), (b, j)) = (parts(x), parts(y));
    signed(x ^ y, Number::at(a * b, i + j))
}

fn signed(pattern: u32, magnitude: Number) -> Number {
    if pattern & SIGN == 0 {
        magnitude
    } else {
        magnitude.opposite()
    }
}

/// A finite pattern's significand, and by how many places it is raised above 2^-149.
fn parts(x: u32) -> (u64, u32) {
    let fraction = u64::from(x & FRACTION);
    match exponent_field(x) {
        0 => (fraction, 0),
        field => (fraction + (1 << 23), field as u32 - 1),
    }
}

/// 2^128 - 2^103: what is above this overflows.
pub fn overflow_edge() -> Number {
    Number::at((1 << 25) - 1, ONE + 103)
}

/// RN0: the nearest pattern, of two that are equally near the one of smaller magnitude.
pub fn nearest(exact: &Number) -> u32 {
    let sign = if exact.is_negative() { SIGN } else { 0 };
    let t = exact.magnitude();
    if t > overflow_edge() {
        return sign | INFINITY;
    }
    // A pattern keeps 24 bits, and none below 2^-149.
    let unit = t.length().saturating_sub(24).max(LAST);
    let kept = t.times(unit);
    let left = t.minus(&Number::at(kept, unit));
    let up = left.plus(&left) > Number::at(1, unit);
    // The leading 1 of 24 bits raises the exponent field by one. Rounding up to 2^24 raises it by two, and
    // leaves a fraction of 0. Fewer bits, which only the lowest place has, raise it by none.
    sign | (((unit - LAST) << 23) + kept as u32 + u32::from(up))
}
