//! Kinds of totals that a fault takes for others.
use crate::totals::model::Total;
use crate::totals::number::Number;

/// How the last word makes a total unfit that is fit by number and count.
#[derive(Clone, Copy, Debug)]
pub enum Unfit {
    AboveOne,
    /// Above 1, but 0 or 1 in the lowest byte, as it has to be for the number and the count.
    AboveByte,
    ZeroOfNumber,
    OneOfNone,
}

pub const UNFIT: [Unfit; 4] = [Unfit::AboveOne, Unfit::AboveByte, Unfit::ZeroOfNumber, Unfit::OneOfNone];

impl Unfit {
    pub fn is(self, total: &Total) -> bool {
        let kind = match self {
            Unfit::AboveOne => total.sign_word > 1,
            Unfit::AboveByte => {
                total.sign_word > 1 && Total { sign_word: total.sign_word & 0xFF, ..*total }.fits()
            }
            Unfit::ZeroOfNumber => total.sign_word == 0 && total.number != Number::ZERO,
            Unfit::OneOfNone => total.sign_word == 1 && total.count == 0,
        };
        kind && total.fits_as_old()
    }
}

/// The kinds of fit totals.
#[derive(Clone, Copy, Debug)]
pub enum Fit {
    Empty,
    MinusZeros,
    /// Zero, but not of -0 alone.
    Zeros,
    Numbers,
}

pub const FIT: [Fit; 4] = [Fit::Empty, Fit::MinusZeros, Fit::Zeros, Fit::Numbers];

impl Fit {
    pub fn is(self, total: &Total) -> bool {
        let zero = total.number == Number::ZERO;
        let kind = match self {
            Fit::Empty => total.count == 0,
            Fit::MinusZeros => total.count > 0 && total.sign_word == 0,
            Fit::Zeros => zero && total.sign_word == 1,
            Fit::Numbers => !zero,
        };
        kind && total.fits()
    }
}
