//! Faults in what carrying over refuses, and in which order.
use super::{Carried, Condition, Side};
use crate::totals::model::{Total, BOUND, LENGTH, MOST, OLD_LENGTH};
use crate::totals::number::{Number, WORDS};
use crate::totals::planted::kinds::{Fit, FIT};

#[derive(Clone, Copy, Debug)]
pub enum Fault {
    /// A call that is refused for this writes to one of the arrays.
    Writes(Condition, Side),
    /// It writes the last of the new words.
    WritesLast(Condition),
    /// What is refused with 6 is carried over all the same.
    UnfitLeft,
    /// So many old words are taken.
    TakesOld(usize),
    /// So many new words are taken.
    TakesNew(usize),
    /// 6 before 5, of one of the arrays.
    UnfitFirst(Side),
    /// An unfit old total is carried over.
    Fits(Unfit),
    /// A fit old total is refused.
    Refuses(Refused),
    /// New words that are not zeros are refused.
    NewNotCleared,
    /// New words that are not a fit total are refused.
    NewUnfit,
}

/// Which unfit total is taken for a fit one.
#[derive(Clone, Copy, Debug)]
pub enum Unfit {
    Above,
    BelowNegative,
    CountAbove,
    WithoutLowest,
    Least,
}

/// Which fit total is refused.
#[derive(Clone, Copy, Debug)]
pub enum Refused {
    Limit,
    NegativeLimit,
    Full,
    Of(Fit),
}

use Condition::Length;
use Side::{New, Old};

pub fn faults() -> Vec<(Fault, &'static str)> {
    // No old total says that its terms were all -0.
    let kinds = FIT.into_iter().filter(|kind| !matches!(kind, Fit::MinusZeros));
    let kinds = kinds.map(|kind| (Fault::Refuses(Refused::Of(kind)), "a fit old total of each kind refused"));
    FAULTS.into_iter().chain(kinds).collect()
}

const WRITES: &str = "carrying over that writes and refuses";
const WRITES_LAST: &str = "carrying over that writes the last word and refuses";

const FAULTS: [(Fault, &str); 28] = [
    (Fault::Writes(Length(Old), Old), WRITES),
    (Fault::Writes(Length(Old), New), WRITES),
    (Fault::Writes(Length(New), Old), WRITES),
    (Fault::Writes(Length(New), New), WRITES),
    (Fault::Writes(Condition::Unfit, Old), WRITES),
    (Fault::Writes(Condition::Unfit, New), WRITES),
    (Fault::WritesLast(Length(Old)), WRITES_LAST),
    (Fault::WritesLast(Length(New)), WRITES_LAST),
    (Fault::WritesLast(Condition::Unfit), WRITES_LAST),
    (Fault::UnfitLeft, "carrying over what is refused with 6"),
    (Fault::TakesOld(OLD_LENGTH - 1), "carrying over 20 words"),
    (Fault::TakesOld(LENGTH), "carrying over 22 words"),
    (Fault::TakesOld(OLD_LENGTH + 256), "carrying over 277 words"),
    (Fault::TakesNew(LENGTH - 1), "carrying over into 21 words"),
    (Fault::TakesNew(LENGTH + 1), "carrying over into 23 words"),
    (Fault::TakesNew(LENGTH + 256), "carrying over into 278 words"),
    (Fault::UnfitFirst(Old), "carrying over, 6 before the old words' 5"),
    (Fault::UnfitFirst(New), "carrying over, 6 before the new words' 5"),
    (Fault::Fits(Unfit::Above), "carrying over one above the limit"),
    (Fault::Fits(Unfit::BelowNegative), "carrying over one below the negative limit"),
    (Fault::Fits(Unfit::CountAbove), "carrying over a count of 65,537"),
    (Fault::Fits(Unfit::WithoutLowest), "carrying over, fit without the lowest word"),
    (Fault::Fits(Unfit::Least), "carrying over -2^639"),
    (Fault::Refuses(Refused::Limit), "carrying over, the limit refused"),
    (Fault::Refuses(Refused::NegativeLimit), "carrying over, the negative limit refused"),
    (Fault::Refuses(Refused::Full), "carrying over, a count of 65,536 refused"),
    (Fault::NewNotCleared, "carrying over into words that are not cleared refused"),
    (Fault::NewUnfit, "carrying over into words that are not fit refused"),
];

impl Unfit {
    fn is(self, total: &Total) -> bool {
        let limit = limit(total);
        let one_above = total.number.magnitude() == limit.plus(&Number::at(1, 0));
        let counted = total.count <= MOST;
        match self {
            Unfit::Above => counted && one_above && !total.number.is_negative(),
            Unfit::BelowNegative => counted && one_above && total.number.is_negative(),
            Unfit::CountAbove => total.count == MOST + 1 && total.number.magnitude() <= limit,
            Unfit::WithoutLowest => counted && total.number.magnitude() < limit.plus(&Number::at(1, 32)),
            Unfit::Least => counted && total.number == Number::at(1, 32 * WORDS as u32 - 1).opposite(),
        }
    }
}

impl Refused {
    fn is(self, total: &Total) -> bool {
        // Not the empty total, which is at its limit too.
        let at_limit = total.count > 0 && total.number.magnitude() == limit(total);
        match self {
            Refused::Limit => at_limit && !total.number.is_negative(),
            Refused::NegativeLimit => at_limit && total.number.is_negative(),
            Refused::Full => total.count == MOST,
            Refused::Of(kind) => kind.is(total),
        }
    }
}

fn limit(total: &Total) -> Number {
    Number::at(u64::from(total.count), BOUND)
}

impl Fault {
    pub fn is_of_old_words(self) -> bool {
        match self {
            Fault::TakesNew(_) | Fault::UnfitFirst(New) => false,
            Fault::Writes(condition, _) | Fault::WritesLast(condition) => condition != Length(New),
            _ => true,
        }
    }

    pub fn spoil(self, carried: &mut Carried) {
        match carried.condition() {
            None => self.spoil_carried_out(carried),
            Some(condition) => self.spoil_refused(condition, carried),
        }
    }

    /// Refused though it should not be.
    fn spoil_carried_out(self, carried: &mut Carried) {
        let total = Total::of_old(&carried.before[0]);
        let held = &carried.before[1];
        match self {
            Fault::Refuses(kind) if kind.is(&total) => carried.refuse(6),
            Fault::NewNotCleared if held.iter().any(|&word| word != 0) => carried.refuse(6),
            Fault::NewUnfit if !Total::of(held).fits() => carried.refuse(6),
            _ => {}
        }
    }

    /// Refused otherwise, or with words written, or carried out.
    fn spoil_refused(self, condition: Condition, carried: &mut Carried) {
        let [old_length, new_length] = [0, 1].map(|i| carried.before[i].len());
        let unfit = carried.total().filter(|total| !total.fits_as_old());
        // Nothing but one of the lengths is wrong.
        let takes_old = |length| old_length == length && new_length == LENGTH && unfit.is_none();
        let takes_new = |length| new_length == length && old_length == OLD_LENGTH && unfit.is_none();
        match self {
            Fault::Writes(of, side) if of == condition => {
                let lent = if side == Old { &mut carried.old } else { &mut carried.new };
                lent.words_mut().iter_mut().take(1).for_each(|word| *word ^= 1);
            }
            Fault::WritesLast(of) if of == condition => {
                carried.new.words_mut().iter_mut().rev().take(1).for_each(|word| *word ^= 1);
            }
            Fault::TakesOld(length) if takes_old(length) => carried.leave(),
            Fault::TakesNew(length) if takes_new(length) => carried.leave(),
            Fault::UnfitFirst(side) if condition == Length(side) && unfit.is_some() => carried.refuse(6),
            _ if condition == Condition::Unfit => self.spoil_unfit(unfit, carried),
            _ => {}
        }
    }

    fn spoil_unfit(self, unfit: Option<Total>, carried: &mut Carried) {
        match self {
            Fault::UnfitLeft => {
                carried.leave();
                carried.refusal = 6;
            }
            Fault::Fits(kind) if unfit.is_some_and(|total| kind.is(&total)) => carried.leave(),
            _ => {}
        }
    }
}
