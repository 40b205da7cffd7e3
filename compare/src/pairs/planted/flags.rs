//! Faults in the flags of a pair.
use super::Given;
use crate::pairs::pair::{Flags, Operation, Pair};
use crate::pairs::questions::Shape;
use crate::pattern::{is_nan, is_signalling, is_subnormal};
use crate::questions::Shape as StepShape;

#[derive(Clone, Copy)]
pub enum Fault {
    /// No flag is raised.
    None,
    /// A quiet NaN raises I.
    QuietInvalid,
    /// A signalling NaN raises I only where it is the one that is kept.
    KeptAlone,
    /// U without X. No sum raises U.
    UnderflowAlone,
    /// A subnormal product raises U and X though it is exact. No sum raises U.
    ExactUnderflow,
}

pub const FAULTS: [(Fault, Shape, &str); 5] = [
    (Fault::None, Shape::Step(StepShape::Uniform), "no flags"),
    (Fault::QuietInvalid, Shape::Step(StepShape::Uniform), "I for a quiet NaN"),
    (Fault::KeptAlone, Shape::Step(StepShape::Special), "no I for a signalling NaN behind a quiet one"),
    (Fault::UnderflowAlone, Shape::Step(StepShape::Subnormal), "U without X"),
    (Fault::ExactUnderflow, Shape::Tiny, "UX for an exact product"),
];

impl Fault {
    pub fn applies(self, operation: Operation) -> bool {
        match self {
            Fault::UnderflowAlone | Fault::ExactUnderflow => operation == Operation::Product,
            Fault::None | Fault::QuietInvalid | Fault::KeptAlone => true,
        }
    }

    pub fn spoilt(self, given: Given) -> Pair {
        let Given { x, right, .. } = given;
        let Pair { first, flags, .. } = right;
        let wrong = match self {
            Fault::None => Flags::NONE,
            Fault::QuietInvalid if is_nan(first) => Flags::I,
            Fault::KeptAlone if is_nan(x) && !is_signalling(x) => Flags::NONE,
            Fault::UnderflowAlone => Flags { inexact: flags.overflow, ..flags },
            Fault::ExactUnderflow if is_subnormal(first) => Flags::UX,
            _ => flags,
        };
        Pair { flags: wrong, ..right }
    }
}
