//! Faults in what is refused, and in which order.
use super::Done;
use crate::pattern::{is_finite, magnitude, INFINITY};
use crate::totals::call::Call;
use crate::totals::columns::Shape;
use crate::totals::model::{Term, Total, BOUND, LENGTH, MOST, OLD_LENGTH};
use crate::totals::number::{Number, WORDS};

#[derive(Clone, Copy, Debug)]
pub enum Fault {
    /// The magnitude may be one above the limit, for one sign.
    LimitAbove { negative: bool },
    /// The magnitude has to be below the limit, for one sign.
    LimitBelow { negative: bool },
    /// A count of 65,537 fits.
    CountAbove,
    /// A count of 65,536 does not fit.
    CountBelow,
    /// -2^639, whose opposite the words do not hold, fits.
    LeastFits,
    /// The lowest word of the number is not looked at for fit.
    LowestUnseen,
    /// A call that is refused with this number writes a word.
    Writes(u32),
    /// The first condition is tried before the second.
    Before(u32, u32),
    /// 8 at a count of 65,535.
    FullEarly,
    /// No 8 at a count of 65,536.
    FullLate,
    /// The second factor may be infinite or NaN.
    SecondFactor,
    /// Zero times infinity is a term of zero.
    ZeroTimesInfinity,
    /// Clearing takes so many words too.
    ClearTakes(usize),
    /// Clearing refuses a total that does not fit.
    ClearUnfit,
}

pub const FAULTS: [(Fault, Shape, &str); 24] = [
    (Fault::LimitAbove { negative: false }, Shape::Limits, "one above the limit fits"),
    (Fault::LimitAbove { negative: true }, Shape::Limits, "one below the negative limit fits"),
    (Fault::LimitBelow { negative: false }, Shape::Limits, "the limit does not fit"),
    (Fault::LimitBelow { negative: true }, Shape::Limits, "the negative limit does not fit"),
    (Fault::CountAbove, Shape::Limits, "a count of 65,537 fits"),
    (Fault::CountBelow, Shape::Limits, "a count of 65,536 does not fit"),
    (Fault::LeastFits, Shape::Damaged, "-2^639 fits"),
    (Fault::LowestUnseen, Shape::Limits, "fit without the lowest word"),
    (Fault::Writes(5), Shape::Lengths, "a call refused with 5 that writes"),
    (Fault::Writes(6), Shape::Damaged, "a call refused with 6 that writes"),
    (Fault::Writes(7), Shape::Random, "a call refused with 7 that writes"),
    (Fault::Writes(8), Shape::Largest, "a call refused with 8 that writes"),
    (Fault::Before(7, 5), Shape::Lengths, "7 before 5"),
    (Fault::Before(7, 6), Shape::Limits, "7 before 6"),
    (Fault::Before(8, 6), Shape::Limits, "8 before 6"),
    (Fault::Before(8, 7), Shape::Long, "8 before 7"),
    (Fault::FullEarly, Shape::Long, "8 one term too early"),
    (Fault::FullLate, Shape::Largest, "no 8 at 65,536 terms"),
    (Fault::SecondFactor, Shape::Random, "a second factor that is not finite"),
    (Fault::ZeroTimesInfinity, Shape::Random, "zero times infinity as a term"),
    (Fault::ClearTakes(OLD_LENGTH), Shape::Lengths, "clearing takes 21 words"),
    (Fault::ClearTakes(LENGTH + 1), Shape::Lengths, "clearing takes 23 words"),
    (Fault::ClearTakes(LENGTH + 256), Shape::Lengths, "clearing takes 278 words"),
    (Fault::ClearUnfit, Shape::Damaged, "clearing refuses what does not fit"),
];

impl Fault {
    /// Whether calls on a fit total show it.
    pub fn is_of_fit(self) -> bool {
        match self {
            Fault::LimitBelow { .. } | Fault::CountBelow | Fault::Writes(7 | 8) | Fault::Before(8, 7) => true,
            Fault::FullEarly | Fault::FullLate | Fault::SecondFactor | Fault::ZeroTimesInfinity => true,
            Fault::LimitAbove { .. } | Fault::CountAbove | Fault::LeastFits | Fault::LowestUnseen => false,
            Fault::Writes(_) | Fault::Before(..) | Fault::ClearTakes(_) | Fault::ClearUnfit => false,
        }
    }

    pub fn spoil(self, done: &mut Done) {
        match done.answer.refusal {
            0 => self.spoil_carried_out(done),
            refusal => self.spoil_refused(refusal, done),
        }
    }

    /// Refused though it should not be.
    fn spoil_carried_out(self, done: &mut Done) {
        let Some(total) = done.total() else { return };
        // Not the cleared total, with which every column begins.
        let at_limit = total.count > 0 && total.number.magnitude() == limit(&total);
        match self {
            Fault::ClearUnfit if done.call == Call::Clear && !total.fits() => done.refuse(6),
            _ if done.call == Call::Clear => {}
            Fault::LimitBelow { negative } if at_limit && total.number.is_negative() == negative => {
                done.refuse(6)
            }
            Fault::CountBelow if total.count == MOST => done.refuse(6),
            Fault::FullEarly if done.has_added() && total.count == MOST - 1 => done.refuse(8),
            _ => {}
        }
    }

    /// Carried out, or refused otherwise, or with words written.
    fn spoil_refused(self, refusal: u32, done: &mut Done) {
        match self {
            Fault::Writes(of) if of == refusal => {
                if let Some(word) = done.lent.words_mut().first_mut() {
                    *word ^= 1;
                }
            }
            Fault::Before(7, then) if then == refusal && done.has_bad_operand() => done.refuse(7),
            Fault::ClearTakes(length) if done.call == Call::Clear && done.before.len() == length => {
                done.lent.words_mut().fill(0);
                done.answer.refusal = 0;
            }
            _ => {
                if let Some(total) = done.total() {
                    self.spoil_refused_total(refusal, &total, done);
                }
            }
        }
    }

    fn spoil_refused_total(self, refusal: u32, total: &Total, done: &mut Done) {
        let full = total.count == MOST && done.call.is_adding();
        match self {
            Fault::Before(8, then) if then == refusal && full => done.refuse(8),
            Fault::FullLate if refusal == 8 => done.carry_out(),
            Fault::SecondFactor if refusal == 7 && only_second(done.call) => done.carry_out(),
            Fault::ZeroTimesInfinity if refusal == 7 && zero_times_infinity(done.call) => {
                done.leave(total.with(&Term { number: Number::ZERO, minus_zero: false }));
            }
            _ if refusal == 6 && !done.has_bad_operand() && self.fits(total, done.call) => done.carry_out(),
            _ => {}
        }
    }

    /// Whether an unfit total is taken for a fit one. Those at -2^639 are not added to: there is no room.
    fn fits(self, total: &Total, call: Call) -> bool {
        let (number, limit) = (total.number, limit(total));
        let counted = total.count <= MOST;
        match self {
            Fault::LimitAbove { negative } => {
                let above = number.magnitude() == limit.plus(&Number::at(1, 0));
                counted && above && number.is_negative() == negative
            }
            Fault::CountAbove => total.count == MOST + 1 && number.magnitude() <= limit,
            Fault::LeastFits => {
                counted && number == Number::at(1, WORDS as u32 * 32 - 1).opposite() && call == Call::Read
            }
            Fault::LowestUnseen => {
                let above = number.magnitude() < limit.plus(&Number::at(1, 32));
                counted && above
            }
            _ => false,
        }
    }
}

fn limit(total: &Total) -> Number {
    Number::at(u64::from(total.count), BOUND)
}

fn only_second(call: Call) -> bool {
    matches!(call, Call::Product(x, y) if is_finite(x) && !is_finite(y))
}

fn zero_times_infinity(call: Call) -> bool {
    matches!(call, Call::Product(x, y) if {
        let (x, y) = (magnitude(x), magnitude(y));
        x.min(y) == 0 && x.max(y) == INFINITY
    })
}
