//! Faults in the numbers of a pair.
use super::Given;
use crate::pairs::pair::{Flags, Operation, Pair};
use crate::pairs::questions::Shape;
use crate::pattern::{exact, exponent_field, is_finite, magnitude, FRACTION, LARGEST, NAN, SIGN};
use crate::questions::Shape as StepShape;

#[derive(Clone, Copy)]
pub enum Fault {
    /// 2^128 - 2^103 itself overflows.
    EdgeOverflows,
    /// At a tie just below a power of two, first is that power less the spacing above it.
    SpacingAbove,
    /// Ties go to the even last bit.
    TieToEven,
    /// A tiny product is rounded to 24 bits, and then to 2^-149. No sum is tiny and inexact.
    RoundedTwice,
    /// A tie of second goes to the even last bit. A sum's second is not rounded.
    SecondToEven,
    /// Second is the opposite infinity at overflow.
    OppositeInfinity,
    /// Second is a NaN at overflow.
    NanAtOverflow,
    /// Every zero second has a plus sign.
    PlusZero,
    /// Numbers that cancel leave -0. Products do not cancel.
    MinusZero,
    /// The last bit of second is wrong where first is a power of two.
    Carry,
    /// The addends or factors are handed back: of a difference, y with its sign turned, which adds up.
    Operands,
}

pub const FAULTS: [(Fault, Shape, &str); 11] = [
    (Fault::EdgeOverflows, Shape::Overflow, "overflow at 2^128 - 2^103 itself"),
    (Fault::SpacingAbove, Shape::Halfway, "the spacing above a power of two"),
    (Fault::TieToEven, Shape::Halfway, "a tie to even"),
    (Fault::RoundedTwice, Shape::Tiny, "a tiny product rounded twice"),
    (Fault::SecondToEven, Shape::Tiny, "a tie of second to even"),
    (Fault::OppositeInfinity, Shape::Overflow, "second the opposite infinity"),
    (Fault::NanAtOverflow, Shape::Overflow, "second NaN at overflow"),
    (Fault::PlusZero, Shape::Step(StepShape::Subnormal), "a plus sign on every zero second"),
    (Fault::MinusZero, Shape::Step(StepShape::Cancelling), "-0 from numbers that cancel"),
    (Fault::Carry, Shape::Step(StepShape::Cancelling), "a wrong bit beside a power of two"),
    (Fault::Operands, Shape::Step(StepShape::Near), "the operands handed back"),
];

impl Fault {
    pub fn applies(self, operation: Operation) -> bool {
        let product = operation == Operation::Product;
        match self {
            Fault::RoundedTwice | Fault::SecondToEven => product,
            Fault::MinusZero => !product,
            _ => true,
        }
    }

    pub fn spoilt(self, given: Given) -> Pair {
        let Given { operation, x, y, right } = given;
        let Pair { first, second, flags } = right;
        let sign = first & SIGN;
        match self {
            Fault::EdgeOverflows if at_edge(right) => Pair::twice(first + 1, Flags::OX),
            Fault::SpacingAbove if below_power(right) => {
                let wrong = exact(sign >> 31, 3, half_unit(first)).expect("two bits above a half unit");
                Pair { first: first - 1, second: wrong, flags }
            }
            Fault::TieToEven if is_tie(right) && !at_edge(right) && first & 1 == 1 => {
                Pair { first: first + 1, second: second ^ SIGN, flags }
            }
            Fault::RoundedTwice => rounded_twice(x, y).map_or(right, |m| Pair { first: sign | m, ..right }),
            Fault::SecondToEven if second_odd_at_tie(x, y, right) => Pair { second: second + 1, ..right },
            Fault::OppositeInfinity if flags == Flags::OX => Pair { second: second ^ SIGN, ..right },
            Fault::NanAtOverflow if flags == Flags::OX => Pair { second: NAN, ..right },
            Fault::PlusZero if second == SIGN => Pair { second: 0, ..right },
            Fault::MinusZero if first == 0 && magnitude(x) != 0 => Pair::twice(SIGN, flags),
            Fault::Carry if is_power(first) => Pair { second: second ^ 1, ..right },
            Fault::Operands if operation == Operation::Difference => {
                Pair { first: x, second: y ^ SIGN, flags }
            }
            Fault::Operands => Pair { first: x, second: y, flags },
            _ => right,
        }
    }
}

/// The exponent of half the spacing above a number.
fn half_unit(x: u32) -> i32 {
    exponent_field(x).max(1) - 151
}

/// First, and half the spacing above it: the exact number is a tie. A half of 2^-149 is no number, so that
/// ties of tiny products are none of these.
fn is_tie(pair: Pair) -> bool {
    is_finite(pair.first) && exact(pair.first >> 31, 1, half_unit(pair.first)) == Some(pair.second)
}

fn at_edge(pair: Pair) -> bool {
    is_tie(pair) && magnitude(pair.first) == LARGEST
}

fn below_power(pair: Pair) -> bool {
    is_tie(pair) && !at_edge(pair) && pair.first & FRACTION == FRACTION
}

fn is_power(x: u32) -> bool {
    is_finite(x) && magnitude(x) != 0 && x & FRACTION == 0
}

/// A product as binary64 has it: exactly, as it has at most 48 bits.
fn product(x: u32, y: u32) -> f64 {
    f64::from(f32::from_bits(x)) * f64::from(f32::from_bits(y))
}

/// A number in units of 2^-149.
fn units(number: f64) -> f64 {
    number * 2f64.powi(149)
}

/// The magnitude's pattern, for a product below 2^-126 that is rounded to 24 bits first.
fn rounded_twice(x: u32, y: u32) -> Option<u32> {
    let exact = product(x, y).abs();
    let tiny = exact > 0.0 && exact < f64::from(f32::MIN_POSITIVE);
    let dropped = exact.to_bits() & ((1 << 29) - 1);
    let up = if dropped > 1 << 28 { 1 << 29 } else { 0 };
    let short = units(f64::from_bits(exact.to_bits() - dropped + up));
    let whole = short.floor();
    // A pattern up to 2^-126 is its number of units.
    tiny.then_some(whole as u32 + u32::from(short - whole > 0.5))
}

/// The rest is an odd number of units and a half: ties to even would go up.
fn second_odd_at_tie(x: u32, y: u32, pair: Pair) -> bool {
    let rest = units(product(x, y) - f64::from(f32::from_bits(pair.first))).abs();
    rest - rest.floor() == 0.5 && pair.second & 1 == 1
}
