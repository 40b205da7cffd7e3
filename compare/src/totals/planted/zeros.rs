//! Faults in the sign word: in what becomes of it, and in what it makes unfit.
use super::kinds::{Fit, Unfit, FIT, UNFIT};
use super::Done;
use crate::pattern::SIGN;
use crate::totals::call::{Call, Reading};
use crate::totals::columns::Shape;
use crate::totals::model::{nearest, Term, MOST, ZERO_SIGN};
use crate::totals::number::Number;

#[derive(Clone, Copy, Debug)]
pub enum Fault {
    /// Other terms than -0 leave it 0, or not every -0 does.
    Takes(Taken),
    /// It goes by the last term alone.
    OfLast,
    /// It goes by the first term alone.
    OfFirst,
    /// It is 0 wherever the number is.
    OfNumber,
    /// Clearing leaves it.
    ClearLeaves,
    /// A call that is refused with this number writes it, or the last word of those that are lent.
    Writes(u32),
    /// A reading writes it.
    ReadingWrites,
    /// An unfit total of this kind is taken for a fit one.
    Fits(Unfit),
    /// A fit total of this kind is refused.
    Refuses(Fit),
}

/// What is taken for -0.
#[derive(Clone, Copy, Debug)]
pub enum Taken {
    /// No product: its sign is ignored.
    NoProduct,
    /// Every product that is zero.
    EveryZeroProduct,
    /// A zero product whose first factor has a minus sign.
    MinusFirst,
    /// A zero product whose second factor has one.
    MinusSecond,
    /// No pattern.
    NoPattern,
    /// +0 too.
    PlusZero,
    /// Patterns that are not zero, too.
    Patterns,
    /// Products that are not zero, too.
    Products,
    /// Whatever has a minus sign.
    Negative,
    /// Negative products that are too small to be seen, too.
    Unseen,
}

pub fn faults() -> Vec<(Fault, Shape, &'static str)> {
    let taken = TAKEN.map(|(taken, name)| (Fault::Takes(taken), Shape::Zeros, name));
    let fits = UNFIT.map(|kind| (Fault::Fits(kind), Shape::Damaged, unfit_name(kind)));
    let refused = FIT.map(|kind| (Fault::Refuses(kind), Shape::Zeros, fit_name(kind)));
    taken.into_iter().chain(OTHERS).chain(fits).chain(refused).collect()
}

const TAKEN: [(Taken, &str); 10] = [
    (Taken::NoProduct, "a product's sign ignored in the last word"),
    (Taken::EveryZeroProduct, "every zero product taken for -0"),
    (Taken::MinusFirst, "a zero product by the first factor's sign"),
    (Taken::MinusSecond, "a zero product by the second factor's sign"),
    (Taken::NoPattern, "-0 taken for +0"),
    (Taken::PlusZero, "+0 taken for -0"),
    (Taken::Patterns, "the last word left by a pattern that is not zero"),
    (Taken::Products, "the last word left by a product that is not zero"),
    (Taken::Negative, "the last word left by whatever is negative"),
    (Taken::Unseen, "the last word left by a product that is too small to be seen"),
];

const OTHERS: [(Fault, Shape, &str); 9] = [
    (Fault::OfLast, Shape::Zeros, "the last word by the last term alone"),
    (Fault::OfFirst, Shape::Zeros, "the last word by the first term alone"),
    (Fault::OfNumber, Shape::Zeros, "the last word 0 wherever the number is"),
    (Fault::ClearLeaves, Shape::Damaged, "clearing that leaves the last word"),
    (Fault::Writes(5), Shape::Lengths, "a call refused with 5 that writes the last word"),
    (Fault::Writes(6), Shape::Damaged, "a call refused with 6 that writes the last word"),
    (Fault::Writes(7), Shape::Zeros, "a call refused with 7 that writes the last word"),
    (Fault::Writes(8), Shape::Zeros, "a call refused with 8 that writes the last word"),
    (Fault::ReadingWrites, Shape::Zeros, "a reading that writes the last word"),
];

fn unfit_name(kind: Unfit) -> &'static str {
    match kind {
        Unfit::AboveOne => "a last word above 1 that fits",
        Unfit::AboveByte => "a last word that fits by its lowest byte",
        Unfit::ZeroOfNumber => "a last word of 0 with a number that fits",
        Unfit::OneOfNone => "a last word of 1 without terms that fits",
    }
}

fn fit_name(kind: Fit) -> &'static str {
    match kind {
        Fit::Empty => "an empty total refused",
        Fit::MinusZeros => "a total of -0 alone refused",
        Fit::Zeros => "another zero total refused",
        Fit::Numbers => "a total that is not zero refused",
    }
}

impl Taken {
    fn takes(self, call: Call) -> bool {
        let Term { number, minus_zero } = Term::of(call);
        let zero = number == Number::ZERO;
        match (self, call) {
            (Taken::NoProduct, Call::Product(..)) | (Taken::NoPattern, Call::Pattern(_)) => false,
            (Taken::EveryZeroProduct, Call::Product(..)) => zero,
            (Taken::MinusFirst, Call::Product(x, _)) => zero && x & SIGN != 0,
            (Taken::MinusSecond, Call::Product(_, y)) => zero && y & SIGN != 0,
            (Taken::PlusZero, Call::Pattern(0)) => true,
            (Taken::Patterns, Call::Pattern(_)) | (Taken::Products, Call::Product(..)) => minus_zero || !zero,
            (Taken::Negative, _) => minus_zero || number.is_negative(),
            (Taken::Unseen, Call::Product(..)) => minus_zero || nearest(&number) == SIGN,
            _ => minus_zero,
        }
    }
}

impl Fault {
    /// Whether one call on a total that is carried over shows it: such a total is empty, or its last word is 1.
    pub fn is_of_carried(self) -> bool {
        match self {
            Fault::Takes(_) | Fault::OfLast | Fault::OfNumber | Fault::ClearLeaves => true,
            Fault::Writes(7 | 8) | Fault::ReadingWrites | Fault::Refuses(_) => true,
            Fault::OfFirst | Fault::Writes(_) | Fault::Fits(_) => false,
        }
    }

    pub fn spoil(self, done: &mut Done) {
        match self {
            Fault::Takes(_) | Fault::OfLast | Fault::OfFirst | Fault::OfNumber if done.has_added() => {
                done.lent.words_mut()[ZERO_SIGN] = u32::from(!self.stays_zero(done));
            }
            Fault::ClearLeaves if done.call == Call::Clear && done.answer == Reading::DONE => {
                done.lent.words_mut()[ZERO_SIGN] = done.before[ZERO_SIGN];
            }
            Fault::Writes(refusal) if done.answer.refusal == refusal => write_last(done),
            Fault::ReadingWrites if done.call == Call::Read && done.answer.refusal == 0 => write_last(done),
            Fault::Fits(kind) if done.answer.refusal == 6 => carry_out_unfit(kind, done),
            Fault::Refuses(kind) if done.call != Call::Clear && done.total().is_some_and(|t| kind.is(&t)) => {
                done.refuse(6);
            }
            _ => {}
        }
    }

    /// Whether the last word is 0 after a term.
    fn stays_zero(self, done: &mut Done) -> bool {
        let was_zero = done.before[ZERO_SIGN] == 0;
        let minus_zero = Term::of(done.call).minus_zero;
        match (self, done.total()) {
            (Fault::Takes(taken), _) => was_zero && taken.takes(done.call),
            (Fault::OfLast, _) => minus_zero,
            (Fault::OfFirst, Some(total)) if total.count > 0 => was_zero,
            (Fault::OfNumber, Some(total)) => total.with(&Term::of(done.call)).number == Number::ZERO,
            _ => was_zero && minus_zero,
        }
    }
}

fn write_last(done: &mut Done) {
    if let Some(word) = done.lent.words_mut().last_mut() {
        *word ^= 1;
    }
}

/// What comes after 6 in the order is refused all the same.
fn carry_out_unfit(kind: Unfit, done: &mut Done) {
    let Some(total) = done.total().filter(|total| kind.is(total)) else { return };
    if done.has_bad_operand() {
        done.refuse(7);
    } else if done.call.is_adding() && total.count == MOST {
        done.refuse(8);
    } else {
        done.carry_out();
    }
}
