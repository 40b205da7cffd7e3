//! Faults in carrying an old total over.
mod refusals;
mod words;

use crate::totals::columns::Shape;
use crate::totals::model::{Total, LENGTH, OLD_LENGTH};
use crate::totals::subject::{Lent, Library, Subject as _};

#[derive(Clone, Copy, Debug)]
pub enum Fault {
    Words(words::Fault),
    Refusal(refusals::Fault),
}

pub fn faults() -> Vec<(Fault, Shape, &'static str)> {
    let words = words::faults().into_iter().map(|(fault, shape, name)| (Fault::Words(fault), shape, name));
    // All that is refused has one shape.
    let refusals = refusals::faults().into_iter();
    let refusals = refusals.map(|(fault, name)| (Fault::Refusal(fault), Shape::Carrying, name));
    words.chain(refusals).collect()
}

impl Fault {
    /// Whether it is in what becomes of old words, where the new ones are of the right length and no total.
    pub fn is_of_old_words(self) -> bool {
        match self {
            Fault::Words(fault) => !matches!(fault, words::Fault::Joined),
            Fault::Refusal(fault) => fault.is_of_old_words(),
        }
    }

    /// The library's answer, spoilt.
    pub fn carry_over(self, old: &mut Lent, new: &mut Lent) -> u32 {
        let before = [old.words().to_vec(), new.words().to_vec()];
        let refusal = Library.carry_over(old, new);
        let mut carried = Carried { before, old, new, refusal };
        match self {
            Fault::Words(fault) => fault.spoil(&mut carried),
            Fault::Refusal(fault) => fault.spoil(&mut carried),
        }
        carried.refusal
    }
}

#[derive(Clone, Copy, PartialEq, Eq, Debug)]
pub enum Side {
    Old,
    New,
}

/// Why carrying over is refused.
#[derive(Clone, Copy, PartialEq, Eq, Debug)]
pub enum Condition {
    Length(Side),
    Unfit,
}

/// A call that the library has carried out or refused.
pub struct Carried<'a> {
    before: [Vec<u32>; 2],
    old: &'a mut Lent,
    new: &'a mut Lent,
    refusal: u32,
}

impl Carried<'_> {
    /// What the first 21 old words held, if there are so many.
    fn total(&self) -> Option<Total> {
        self.before[0].get(..OLD_LENGTH).map(Total::of_old)
    }

    fn condition(&self) -> Option<Condition> {
        if self.before[0].len() != OLD_LENGTH {
            Some(Condition::Length(Side::Old))
        } else if self.before[1].len() != LENGTH {
            Some(Condition::Length(Side::New))
        } else {
            (self.refusal != 0).then_some(Condition::Unfit)
        }
    }

    fn refuse(&mut self, refusal: u32) {
        self.new.words_mut().copy_from_slice(&self.before[1]);
        self.refusal = refusal;
    }

    /// As much of the old total as there is, in as much of the new words as there is.
    fn leave(&mut self) {
        let mut old = self.before[0].clone();
        old.resize(OLD_LENGTH, 0);
        for (word, left) in self.new.words_mut().iter_mut().zip(Total::of_old(&old).words()) {
            *word = left;
        }
        self.refusal = 0;
    }
}
