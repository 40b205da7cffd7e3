//! Whole numbers with a sign, in digits of 32 bits: the model's own.
use std::cmp::Ordering;

/// One digit more than a total has words for its number: no sum or opposite of such numbers leaves the room.
const DIGITS: usize = WORDS + 1;
/// The words of a total that hold its number.
pub const WORDS: usize = 20;
const BASE: i64 = 1 << 32;

/// The sum of digit * 2^(32 * place). Every digit but the highest is from 0 to 2^32 - 1; the highest has the
/// sign. So a number has one form only, and numbers are in order as their digits are, from the highest down.
#[derive(Clone, Copy, PartialEq, Eq, Debug)]
pub struct Number([i64; DIGITS]);

impl Number {
    pub const ZERO: Number = Number([0; DIGITS]);

    /// count * 2^place.
    pub fn at(count: u64, place: u32) -> Number {
        let mut digits = [0; DIGITS];
        let lowest = (place / 32) as usize;
        let shifted = u128::from(count) << (place % 32);
        for (i, digit) in digits.iter_mut().enumerate().skip(lowest).take(3) {
            *digit = (shifted >> (32 * (i - lowest))) as i64 & (BASE - 1);
        }
        Number(digits)
    }

    /// What 20 words hold as two's complement: the words as digits, less 2^640 if the last begins with a 1.
    pub fn of_words(words: &[u32]) -> Number {
        assert_eq!(words.len(), WORDS, "a total has so many");
        let mut digits = [0; DIGITS];
        for (digit, &word) in digits.iter_mut().zip(words) {
            *digit = i64::from(word);
        }
        digits[WORDS] = -i64::from(words[WORDS - 1] >> 31);
        Number(digits)
    }

    /// The 20 words that hold the number, which has to be from -2^639 up and below 2^639.
    pub fn words(&self) -> [u32; WORDS] {
        let words: [u32; WORDS] = std::array::from_fn(|i| self.0[i] as u32);
        assert_eq!(Number::of_words(&words), *self, "the words have room for the number");
        words
    }

    pub fn plus(&self, other: &Number) -> Number {
        carried(std::array::from_fn(|i| self.0[i] + other.0[i]))
    }

    pub fn minus(&self, other: &Number) -> Number {
        carried(std::array::from_fn(|i| self.0[i] - other.0[i]))
    }

    pub fn opposite(&self) -> Number {
        Number::ZERO.minus(self)
    }

    pub fn is_negative(&self) -> bool {
        self.0[WORDS] < 0
    }

    pub fn magnitude(&self) -> Number {
        if self.is_negative() {
            self.opposite()
        } else {
            *self
        }
    }

    /// How many bits a number that is not negative has.
    pub fn length(&self) -> u32 {
        let highest = self.0.iter().rposition(|&digit| digit != 0);
        highest.map_or(0, |i| 32 * i as u32 + 64 - self.0[i].leading_zeros())
    }

    /// So many times 2^place goes into a number that is not negative and below 2^(place + 32).
    pub fn times(&self, place: u32) -> u64 {
        let bit = |place: u32| (self.0[(place / 32) as usize] >> (place % 32)) as u64 & 1;
        (0..32).map(|i| bit(place + i) << i).sum()
    }
}

/// Brings every digit but the highest into its range.
fn carried(mut digits: [i64; DIGITS]) -> Number {
    for i in 0..DIGITS - 1 {
        let over = digits[i].div_euclid(BASE);
        digits[i] -= over * BASE;
        digits[i + 1] += over;
    }
    Number(digits)
}

impl PartialOrd for Number {
    fn partial_cmp(&self, other: &Number) -> Option<Ordering> {
        Some(self.cmp(other))
    }
}

impl Ord for Number {
    fn cmp(&self, other: &Number) -> Ordering {
        self.0.iter().rev().cmp(other.0.iter().rev())
    }
}
