//! Faults in what joining refuses, and in which order.
use super::{Condition, Joined, Side};
use crate::totals::columns::Shape;
use crate::totals::model::{Total, BOUND, LENGTH, MOST};
use crate::totals::number::{Number, WORDS};
use crate::totals::planted::kinds::{Fit, Unfit as Misfit, FIT, UNFIT};

#[derive(Clone, Copy, Debug)]
pub enum Fault {
    /// The second total is tried before the first.
    SecondFirst,
    /// Both lengths are tried before either total's fit.
    LengthsFirst,
    /// 12 is tried before this.
    RoomBefore(Condition),
    /// 12 at 65,536 terms.
    RoomEarly,
    /// No 12 at 65,537 terms.
    RoomLate,
    /// No 12 at all.
    RoomNever,
    /// 5 for an unfit second, and 6 for its length.
    Exchanged,
    /// A join that is refused for this writes to a total.
    Writes(Condition, Side),
    /// A join that is refused with 12 leaves the sum.
    RoomJoins,
    /// It leaves the count.
    RoomCounts,
    /// A total that does not fit is joined.
    Unseen(Side),
    /// One above the limit fits, for one sign.
    LimitAbove(Side, Sign),
    /// The limit does not fit, for one sign.
    LimitBelow(Side, Sign),
    /// A count of 65,537 fits: only 12 is left.
    CountAbove(Side),
    /// A count of 65,536 does not fit.
    CountBelow(Side),
    /// A total that the last word makes unfit in this way is joined.
    LastUnseen(Side, Misfit),
    /// A fit total of this kind is refused.
    Refuses(Side, Fit),
    /// A join that is refused for this writes the last word of the first.
    WritesLast(Condition),
    /// So many words are taken as if they were 22.
    Takes(Side, usize),
}

#[derive(Clone, Copy, PartialEq, Eq, Debug)]
pub enum Sign {
    Plus,
    Minus,
}

use Condition::{Length, Room, Unfit};
use Side::{First, Second};
use Sign::{Minus, Plus};

pub fn faults() -> Vec<(Fault, Shape, &'static str)> {
    let on = |side: Side| {
        let unseen = UNFIT.map(|kind| (Fault::LastUnseen(side, kind), Shape::Misfits, unseen_name(side)));
        let refused = FIT.map(|kind| (Fault::Refuses(side, kind), Shape::Zeros, refused_name(side)));
        unseen.into_iter().chain(refused)
    };
    FAULTS.into_iter().chain(on(First)).chain(on(Second)).collect()
}

fn unseen_name(side: Side) -> &'static str {
    match side {
        First => "joining to a first whose last word does not fit, in each way",
        Second => "joining a second whose last word does not fit, in each way",
    }
}

fn refused_name(side: Side) -> &'static str {
    match side {
        First => "joining, a fit first of each kind refused",
        Second => "joining, a fit second of each kind refused",
    }
}

const FAULTS: [(Fault, Shape, &str); 47] = [
    (Fault::SecondFirst, Shape::Misfits, "joining, the second tried before the first"),
    (Fault::LengthsFirst, Shape::Misfits, "joining, the second's 5 before the first's 6"),
    (Fault::RoomBefore(Length(First)), Shape::Misfits, "joining, 12 before the first's 5"),
    (Fault::RoomBefore(Unfit(First)), Shape::Misfits, "joining, 12 before the first's 6"),
    (Fault::RoomBefore(Length(Second)), Shape::Misfits, "joining, 12 before the second's 5"),
    (Fault::RoomBefore(Unfit(Second)), Shape::Misfits, "joining, 12 before the second's 6"),
    (Fault::RoomEarly, Shape::Joins, "12 at 65,536 terms"),
    (Fault::RoomEarly, Shape::Trees, "12 at 65,536 terms"),
    (Fault::RoomLate, Shape::Joins, "no 12 at 65,537 terms"),
    (Fault::RoomLate, Shape::Trees, "no 12 at 65,537 terms"),
    (Fault::RoomNever, Shape::Joins, "no 12 at all"),
    (Fault::Exchanged, Shape::Misfits, "joining, the second's 5 and 6 exchanged"),
    (Fault::Writes(Length(First), First), Shape::Misfits, "joining refused with the first's 5 that writes"),
    (Fault::Writes(Unfit(First), First), Shape::Misfits, "joining refused with the first's 6 that writes"),
    (Fault::Writes(Length(Second), First), Shape::Misfits, "joining refused with the second's 5 that writes"),
    (Fault::Writes(Unfit(Second), First), Shape::Misfits, "joining refused with the second's 6 that writes"),
    (Fault::Writes(Room, First), Shape::Joins, "joining refused with 12 that writes"),
    (Fault::Writes(Length(First), Second), Shape::Misfits, "the same, to the second"),
    (Fault::Writes(Unfit(First), Second), Shape::Misfits, "the same, to the second"),
    (Fault::Writes(Length(Second), Second), Shape::Misfits, "the same, to the second"),
    (Fault::Writes(Unfit(Second), Second), Shape::Misfits, "the same, to the second"),
    (Fault::Writes(Room, Second), Shape::Misfits, "the same, to the second"),
    (Fault::WritesLast(Length(First)), Shape::Misfits, "a refused join that writes the last word"),
    (Fault::WritesLast(Unfit(First)), Shape::Misfits, "a refused join that writes the last word"),
    (Fault::WritesLast(Length(Second)), Shape::Misfits, "a refused join that writes the last word"),
    (Fault::WritesLast(Unfit(Second)), Shape::Misfits, "a refused join that writes the last word"),
    (Fault::WritesLast(Room), Shape::Misfits, "a refused join that writes the last word"),
    (Fault::RoomJoins, Shape::Joins, "joining refused with 12 that leaves the sum"),
    (Fault::RoomCounts, Shape::Misfits, "joining refused with 12 that leaves the count"),
    (Fault::Unseen(First), Shape::Misfits, "joining to an unfit first"),
    (Fault::Unseen(Second), Shape::Misfits, "joining an unfit second"),
    (Fault::LimitAbove(First, Plus), Shape::Misfits, "joining, one above a limit fits"),
    (Fault::LimitAbove(First, Minus), Shape::Misfits, "joining, one above a limit fits"),
    (Fault::LimitAbove(Second, Plus), Shape::Misfits, "joining, one above a limit fits"),
    (Fault::LimitAbove(Second, Minus), Shape::Misfits, "joining, one above a limit fits"),
    (Fault::LimitBelow(First, Plus), Shape::Joins, "joining, a limit does not fit"),
    (Fault::LimitBelow(First, Minus), Shape::Joins, "joining, a limit does not fit"),
    (Fault::LimitBelow(Second, Plus), Shape::Joins, "joining, a limit does not fit"),
    (Fault::LimitBelow(Second, Minus), Shape::Joins, "joining, a limit does not fit"),
    (Fault::CountAbove(First), Shape::Misfits, "joining, a count of 65,537 fits"),
    (Fault::CountAbove(Second), Shape::Misfits, "joining, a count of 65,537 fits"),
    (Fault::CountBelow(First), Shape::Joins, "joining, a count of 65,536 does not fit"),
    (Fault::CountBelow(Second), Shape::Joins, "joining, a count of 65,536 does not fit"),
    (Fault::Takes(First, LENGTH + 1), Shape::Misfits, "joining to a first of 23 words"),
    (Fault::Takes(First, LENGTH + 256), Shape::Misfits, "joining to a first of 278 words"),
    (Fault::Takes(Second, LENGTH + 1), Shape::Misfits, "joining a second of 23 words"),
    (Fault::Takes(Second, LENGTH + 256), Shape::Misfits, "joining a second of 278 words"),
];

impl Fault {
    pub fn spoil(self, joined: &mut Joined) {
        match joined.condition() {
            None => self.spoil_carried_out(joined),
            Some(condition) => self.spoil_refused(condition, joined),
        }
    }

    /// Refused though it should not be.
    fn spoil_carried_out(self, joined: &mut Joined) {
        let Some((first, second)) = joined.totals() else { return };
        let total = |side| if side == First { first } else { second };
        match self {
            Fault::RoomEarly if first.count + second.count == MOST => joined.refuse(12),
            Fault::Refuses(side, kind) if kind.is(&total(side)) => joined.refuse(6),
            // Not the empty total, which is at its limit too.
            Fault::LimitBelow(side, sign) if total(side).count > 0 && above_limit(&total(side), sign, 0) => {
                joined.refuse(6)
            }
            Fault::CountBelow(side) if total(side).count == MOST => joined.refuse(6),
            _ => {}
        }
    }

    /// Refused otherwise, or with words written, or carried out.
    fn spoil_refused(self, condition: Condition, joined: &mut Joined) {
        match self {
            Fault::SecondFirst => {
                if let Some(second) = joined.misfit(Second) {
                    joined.refuse(number(second));
                }
            }
            Fault::LengthsFirst if joined.misfit(Second) == Some(Length(Second)) => joined.refuse(5),
            Fault::RoomBefore(then) if then == condition && joined.is_overfull() => joined.refuse(12),
            Fault::Exchanged if condition == Length(Second) => joined.refuse(6),
            Fault::Exchanged if condition == Unfit(Second) => joined.refuse(5),
            Fault::Writes(of, side) if of == condition => {
                if let Some(word) = joined.lent[side as usize].words_mut().first_mut() {
                    *word ^= 1;
                }
            }
            Fault::WritesLast(of) if of == condition => {
                if let Some(word) = joined.lent[0].words_mut().last_mut() {
                    *word ^= 1;
                }
            }
            _ => {
                if let Some((first, second)) = joined.totals() {
                    self.spoil_refused_totals(condition, &first, &second, joined);
                }
            }
        }
    }

    fn spoil_refused_totals(self, condition: Condition, first: &Total, second: &Total, joined: &mut Joined) {
        let count = first.count.wrapping_add(second.count);
        let at = |side| condition == Unfit(side);
        let total = |side| if side == First { first } else { second };
        match self {
            Fault::RoomLate if condition == Room && count == MOST + 1 => carry_out(joined),
            Fault::RoomNever if condition == Room => carry_out(joined),
            Fault::RoomJoins if condition == Room => {
                carry_out(joined);
                joined.refusal = 12;
            }
            Fault::RoomCounts if condition == Room => joined.lent[0].words_mut()[WORDS] = count,
            Fault::Unseen(side) if at(side) && total(side).count <= MOST => carry_out(joined),
            Fault::LastUnseen(side, kind) if at(side) && kind.is(total(side)) => carry_out(joined),
            Fault::LimitAbove(side, sign) if at(side) && above_limit(total(side), sign, 1) => {
                carry_out(joined)
            }
            Fault::CountAbove(side) if at(side) && total(side).count == MOST + 1 => joined.refuse(12),
            Fault::Takes(side, length) if condition == Length(side) && joined.words(side).len() == length => {
                carry_out(joined)
            }
            _ => {}
        }
    }
}

fn number(condition: Condition) -> u32 {
    match condition {
        Length(_) => 5,
        Unfit(_) => 6,
        Room => 12,
    }
}

/// That the number is so far above the limit for its count, and so signed.
fn above_limit(total: &Total, sign: Sign, by: u64) -> bool {
    let limit = Number::at(u64::from(total.count), BOUND);
    let negative = sign == Minus;
    total.number.is_negative() == negative && total.number.magnitude() == limit.plus(&Number::at(by, 0))
}

/// As if no condition had been met; but where the words have no room for the sum, nothing is.
fn carry_out(joined: &mut Joined) {
    let Some((first, second)) = joined.totals() else { return };
    let room = Number::at(1, 638);
    if first.number.magnitude() < room && second.number.magnitude() < room {
        joined.leave(&first.number.plus(&second.number), first.count.wrapping_add(second.count));
    }
}
