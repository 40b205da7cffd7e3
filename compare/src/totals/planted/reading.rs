//! Faults in what a reading hands over.
use super::Done;
use crate::pattern::{is_finite, magnitude, INFINITY, LARGEST, SIGN};
use crate::totals::call::{Call, Reading};
use crate::totals::columns::Shape;
use crate::totals::model::{nearest, overflow_edge, value, Total, LAST};
use crate::totals::number::Number;

#[derive(Clone, Copy, Debug)]
pub enum Fault {
    /// A tie of first goes to the even last bit.
    FirstToEven,
    /// A tie of second does.
    SecondToEven,
    /// First is rounded without the number's lowest words.
    FirstCut,
    /// Second is rounded from what is left without its lowest words.
    SecondCut,
    /// Second is rounded from the magnitude of what is left.
    SecondUnsigned,
    /// Second is cut off, not rounded.
    SecondShort,
    /// Second is what is left when the total is read to 24 bits and the last is set.
    SecondOfOther,
    /// The last bit of a second that is not zero is wrong.
    SecondBit,
    /// A first below 2^-126 is rounded to 24 bits, and then to 2^-149.
    RoundedTwice,
    /// 2^128 - 2^103 itself overflows.
    EdgeOverflows,
    /// What is just above it does not.
    AboveEdge,
    /// Second is the opposite infinity at overflow.
    OppositeInfinity,
    /// Second is zero at overflow.
    ZeroAtOverflow,
    /// A zero total that is not empty reads -0, whatever its terms were.
    MinusZero,
    /// An empty total reads -0.
    EmptyMinus,
    /// A total of -0 alone reads +0.
    MinusZerosPlus,
    /// A total of -0 alone reads -0 and +0.
    PlusBesideMinus,
    /// A negative total that is too small reads +0.
    TinyPlus,
    /// A positive total that is too small reads -0.
    TinyMinus,
    /// Every zero second has a plus sign.
    PlusSecond,
    /// A zero second has the sign of what is left.
    OwnSecond,
    /// A refused reading hands over the total all the same.
    RefusedReads,
}

pub const FAULTS: [(Fault, Shape, &str); 19] = [
    (Fault::FirstToEven, Shape::Halfway, "a tie of first to even"),
    (Fault::SecondToEven, Shape::Halfway, "a tie of second to even"),
    (Fault::FirstCut, Shape::Halfway, "first without the lowest words"),
    (Fault::SecondCut, Shape::Halfway, "second without the lowest words"),
    (Fault::SecondUnsigned, Shape::Random, "second of a rest without sign"),
    (Fault::SecondShort, Shape::Random, "second cut off"),
    (Fault::SecondOfOther, Shape::Random, "second of a wrong rest"),
    (Fault::SecondBit, Shape::Random, "second wrong in its last bit"),
    (Fault::RoundedTwice, Shape::Tiny, "a tiny total rounded twice"),
    (Fault::EdgeOverflows, Shape::Overflow, "overflow at 2^128 - 2^103 itself"),
    (Fault::AboveEdge, Shape::Overflow, "no overflow just above it"),
    (Fault::OppositeInfinity, Shape::Overflow, "second the opposite infinity"),
    (Fault::ZeroAtOverflow, Shape::Largest, "second zero at overflow"),
    (Fault::MinusZero, Shape::Cancelling, "-0 of numbers that cancel"),
    (Fault::TinyPlus, Shape::Tiny, "+0 of a negative total"),
    (Fault::TinyMinus, Shape::Tiny, "-0 of a positive total"),
    (Fault::PlusSecond, Shape::Random, "a plus sign on every zero second"),
    (Fault::OwnSecond, Shape::Halfway, "a zero second with a sign of its own"),
    (Fault::RefusedReads, Shape::Damaged, "a refused reading that reads"),
];

/// Faults that only a total of no terms, or of -0 alone, shows.
pub const OF_ZEROS: [(Fault, Shape, &str); 3] = [
    (Fault::EmptyMinus, Shape::Zeros, "-0 of an empty total"),
    (Fault::MinusZerosPlus, Shape::Zeros, "+0 of a total of -0 alone"),
    (Fault::PlusBesideMinus, Shape::Zeros, "second +0 of a total of -0 alone"),
];

impl Fault {
    /// Whether the reading of a fit total shows it.
    pub fn is_of_fit(self) -> bool {
        !matches!(self, Fault::RefusedReads)
    }

    pub fn spoil(self, done: &mut Done) {
        let Some(total) = done.total().filter(|_| done.call == Call::Read) else { return };
        if done.answer.refusal != 0 {
            if matches!(self, Fault::RefusedReads) {
                let Reading { first, second, .. } = total.reading();
                done.answer = Reading { first, second, ..done.answer };
            }
            return;
        }
        let Reading { first, second, .. } = done.answer;
        let spoilt = if total.number == Number::ZERO {
            self.zero(&total)
        } else if is_finite(first) {
            self.finite(&total.number, first, second)
        } else {
            self.infinite(&total.number, first)
        };
        if let Some((first, second)) = spoilt {
            done.answer = Reading::of(first, second);
        }
    }

    fn infinite(self, number: &Number, first: u32) -> Option<(u32, u32)> {
        let above = number.magnitude().minus(&overflow_edge());
        match self {
            Fault::AboveEdge if above < Number::at(1, 32) => Some((first - 1, first & SIGN | 0x7300_0000)),
            Fault::OppositeInfinity => Some((first, first ^ SIGN)),
            Fault::ZeroAtOverflow => Some((first, first & SIGN)),
            _ => None,
        }
    }

    fn finite(self, number: &Number, first: u32, second: u32) -> Option<(u32, u32)> {
        let sign = first & SIGN;
        let rest = number.minus(&value(first));
        match self {
            Fault::FirstToEven => {
                let even = to_even(number, first)?;
                Some((even, with_sign(nearest(&number.minus(&value(even))), even)))
            }
            Fault::SecondToEven => Some((first, to_even(&rest, second)?)),
            Fault::FirstCut => {
                let cut = nearest(&without_lowest(number));
                Some((cut, with_sign(nearest(&number.minus(&value(cut))), cut)))
            }
            Fault::SecondCut => Some((first, with_sign(nearest(&without_lowest(&rest)), first))),
            Fault::SecondUnsigned => Some((first, with_sign(sign | magnitude(second), first))),
            Fault::SecondShort => Some((first, with_sign(cut_off(&rest, second), first))),
            Fault::SecondOfOther => {
                Some((first, with_sign(nearest(&number.minus(&value(first | 1))), first)))
            }
            Fault::SecondBit if magnitude(second) != 0 => Some((first, second ^ 1)),
            Fault::RoundedTwice => Some((rounded_twice(number)?, second)),
            Fault::EdgeOverflows if number.magnitude() == overflow_edge() => Some((first + 1, first + 1)),
            _ => self.zeros(number, first, second),
        }
    }

    /// What a zero total reads.
    fn zero(self, total: &Total) -> Option<(u32, u32)> {
        let minus_zeros = total.count > 0 && total.sign_word == 0;
        match self {
            Fault::MinusZero if total.count > 0 => Some((SIGN, SIGN)),
            Fault::EmptyMinus if total.count == 0 => Some((SIGN, SIGN)),
            Fault::MinusZerosPlus if minus_zeros => Some((0, 0)),
            Fault::PlusBesideMinus if minus_zeros => Some((SIGN, 0)),
            _ => None,
        }
    }

    /// A half that is zero, of a total that is not.
    fn zeros(self, number: &Number, first: u32, second: u32) -> Option<(u32, u32)> {
        let tiny = magnitude(first) == 0;
        let rest = number.minus(&value(first));
        let no_second = magnitude(second) == 0;
        match self {
            Fault::TinyPlus if tiny && first == SIGN => Some((0, 0)),
            Fault::TinyMinus if tiny && first == 0 => Some((SIGN, SIGN)),
            Fault::PlusSecond if no_second => Some((first, 0)),
            Fault::OwnSecond if no_second && rest != Number::ZERO => Some((first, nearest(&rest))),
            _ => None,
        }
    }
}

/// A zero takes the sign of first.
fn with_sign(second: u32, first: u32) -> u32 {
    if magnitude(second) == 0 {
        first & SIGN
    } else {
        second
    }
}

/// The next pattern up, if the number is halfway to it and the nearest one is odd.
fn to_even(number: &Number, nearest: u32) -> Option<u32> {
    let m = magnitude(nearest);
    if m == LARGEST || m & 1 == 0 {
        return None;
    }
    let doubled = number.magnitude().plus(&number.magnitude());
    (doubled == value(m).plus(&value(m + 1))).then_some(nearest + 1)
}

/// Without what is below 2^-149, and so without its four lowest words too.
fn without_lowest(number: &Number) -> Number {
    let mut words = number.magnitude().words();
    words[..4].fill(0);
    let cut = Number::of_words(&words);
    if number.is_negative() {
        cut.opposite()
    } else {
        cut
    }
}

/// The next pattern down, if the nearest is above the magnitude.
fn cut_off(number: &Number, nearest: u32) -> u32 {
    if value(magnitude(nearest)) > number.magnitude() {
        nearest - 1
    } else {
        nearest
    }
}

/// A magnitude below 2^-126 whose bits past 24 are rounded off first.
fn rounded_twice(number: &Number) -> Option<u32> {
    let t = number.magnitude();
    let length = t.length();
    if !(LAST - 24..LAST + 23).contains(&length) {
        return None;
    }
    let unit = length.saturating_sub(24);
    let kept = t.times(unit);
    let left = t.minus(&Number::at(kept, unit));
    let up = left.plus(&left) > Number::at(1, unit);
    let short = nearest(&Number::at(kept + u64::from(up), unit));
    let sign = if number.is_negative() { SIGN } else { 0 };
    debug_assert!(short < INFINITY);
    Some(sign | short)
}
