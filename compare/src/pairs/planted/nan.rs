//! Faults in the NaN that a pair is.
use super::Given;
use crate::pairs::pair::{Operation, Pair};
use crate::pairs::questions::Shape;
use crate::pattern::{is_nan, is_signalling, NAN, QUIET, SIGN};
use crate::questions::Shape as StepShape;

#[derive(Clone, Copy)]
pub enum Fault {
    /// Every NaN is 7FC00000.
    PayloadLost,
    SignDropped,
    /// The NaN operand as it stands.
    NotQuieted,
    /// Of two, that of y.
    SecondFirst,
    /// Of a quiet and a signalling one, the signalling one.
    SignallingFirst,
    /// Operands that are not NaN give FFC00000.
    OwnSign,
    /// The two halves are not alike: second is 7FC00000.
    SecondOther,
    /// In a difference y keeps its sign.
    NotFlipped,
}

const SPECIAL: Shape = Shape::Step(StepShape::Special);

pub const FAULTS: [(Fault, Shape, &str); 8] = [
    (Fault::PayloadLost, SPECIAL, "a NaN's payload lost"),
    (Fault::SignDropped, SPECIAL, "a NaN's sign dropped"),
    (Fault::NotQuieted, SPECIAL, "a signalling NaN not quieted"),
    (Fault::SecondFirst, SPECIAL, "the second NaN before the first"),
    (Fault::SignallingFirst, SPECIAL, "a signalling NaN before a quiet one"),
    (Fault::OwnSign, SPECIAL, "FFC00000 of operands that are not NaN"),
    (Fault::SecondOther, SPECIAL, "second 7FC00000 beside another NaN"),
    (Fault::NotFlipped, SPECIAL, "a difference's NaN not flipped"),
];

impl Fault {
    pub fn applies(self, operation: Operation) -> bool {
        !matches!(self, Fault::NotFlipped) || operation == Operation::Difference
    }

    pub fn spoilt(self, given: Given) -> Pair {
        let Given { operation, x, y, right } = given;
        if !is_nan(right.first) {
            return right;
        }
        let y = if operation == Operation::Difference { y ^ SIGN } else { y };
        let nan = right.first;
        let wrong = match self {
            Fault::PayloadLost => NAN,
            Fault::SignDropped => nan & !SIGN,
            Fault::NotQuieted if is_nan(x) => x,
            Fault::NotQuieted if is_nan(y) => y,
            Fault::SecondFirst if is_nan(y) => y | QUIET,
            Fault::SignallingFirst if is_signalling(y) && !is_signalling(x) => y | QUIET,
            Fault::OwnSign if !is_nan(x) && !is_nan(y) => SIGN | NAN,
            Fault::SecondOther => return Pair { second: NAN, ..right },
            Fault::NotFlipped if !is_nan(x) && is_nan(y) => nan ^ SIGN,
            _ => nan,
        };
        Pair::twice(wrong, right.flags)
    }
}
