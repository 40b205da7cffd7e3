//! Faults in joining.
mod refusals;
mod words;

use crate::totals::columns::Shape;
use crate::totals::model::{Total, LENGTH, MOST, ZERO_SIGN};
use crate::totals::number::{Number, WORDS};
use crate::totals::subject::{Lent, Library, Subject as _};

#[derive(Clone, Copy, Debug)]
pub enum Fault {
    Words(words::Fault),
    Refusal(refusals::Fault),
}

pub fn faults() -> Vec<(Fault, Shape, &'static str)> {
    let words = words::faults().into_iter().map(|(fault, shape, name)| (Fault::Words(fault), shape, name));
    let refusals = refusals::faults().into_iter();
    let refusals = refusals.map(|(fault, shape, name)| (Fault::Refusal(fault), shape, name));
    words.chain(refusals).collect()
}

impl Fault {
    /// The library's answer, spoilt.
    pub fn join(self, first: &mut Lent, second: &mut Lent) -> u32 {
        let before = [first.words().to_vec(), second.words().to_vec()];
        let refusal = Library.join(first, second);
        let mut joined = Joined { before, lent: [first, second], refusal };
        match self {
            Fault::Words(fault) => fault.spoil(&mut joined),
            Fault::Refusal(fault) => fault.spoil(&mut joined),
        }
        joined.refusal
    }
}

/// Which of the two totals.
#[derive(Clone, Copy, PartialEq, Eq, Debug)]
pub enum Side {
    First,
    Second,
}

/// Why a join is refused.
#[derive(Clone, Copy, PartialEq, Eq, Debug)]
pub enum Condition {
    Length(Side),
    Unfit(Side),
    Room,
}

/// A join that the library has carried out or refused.
pub struct Joined<'a> {
    before: [Vec<u32>; 2],
    lent: [&'a mut Lent; 2],
    refusal: u32,
}

impl Joined<'_> {
    fn words(&self, side: Side) -> &[u32] {
        &self.before[side as usize]
    }

    /// What the first 22 words held, if there are so many.
    fn total(&self, side: Side) -> Option<Total> {
        self.words(side).get(..LENGTH).map(Total::of)
    }

    /// The same for both.
    fn totals(&self) -> Option<(Total, Total)> {
        self.total(Side::First).zip(self.total(Side::Second))
    }

    /// What is wrong with one of the totals alone.
    fn misfit(&self, side: Side) -> Option<Condition> {
        let total = self.total(side).filter(|_| self.words(side).len() == LENGTH);
        match total {
            None => Some(Condition::Length(side)),
            Some(total) => (!total.fits()).then_some(Condition::Unfit(side)),
        }
    }

    /// The words at the counts' places come to more than a total takes.
    fn is_overfull(&self) -> bool {
        let counts = self.totals().map(|(one, other)| u64::from(one.count) + u64::from(other.count));
        counts.is_some_and(|count| count > u64::from(MOST))
    }

    fn condition(&self) -> Option<Condition> {
        let misfit = self.misfit(Side::First).or_else(|| self.misfit(Side::Second));
        misfit.or_else(|| self.is_overfull().then_some(Condition::Room))
    }

    fn refuse(&mut self, refusal: u32) {
        for (lent, before) in self.lent.iter_mut().zip(&self.before) {
            lent.words_mut().copy_from_slice(before);
        }
        self.refusal = refusal;
    }

    /// With the last word that is right for the two.
    fn leave(&mut self, number: &Number, count: u32) {
        let all_minus_zero = self.before.iter().all(|words| words[ZERO_SIGN] == 0);
        let words = self.lent[0].words_mut();
        words[..WORDS].copy_from_slice(&number.words());
        words[WORDS] = count;
        words[ZERO_SIGN] = u32::from(!all_minus_zero);
        self.refusal = 0;
    }
}
