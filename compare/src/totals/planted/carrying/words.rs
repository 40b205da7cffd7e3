//! Faults in the words that carrying over leaves.
use super::Carried;
use crate::totals::columns::Shape;
use crate::totals::model::{Total, LENGTH, OLD_LENGTH, ZERO_SIGN};
use crate::totals::number::{Number, WORDS};
use crate::totals::subject::{Lent, Library, Subject as _};

#[derive(Clone, Copy, Debug)]
pub enum Fault {
    /// The last word of a total without terms becomes 1.
    EmptyGetsOne,
    /// The last word always becomes 0.
    AnyGetsZero,
    /// It becomes 0 where the number is 0.
    ZeroGetsZero,
    /// It stays as it was.
    LastLeft,
    /// This word of the number, or the count, stays as it was.
    WordLeft(usize),
    /// The count is kept in 16 bits.
    CountCut,
    /// The old total is added to what the new words held.
    Joined,
    /// The old words become zeros.
    OldCleared,
    /// The old count is written.
    OldCounted,
    /// The word behind the old ones is written.
    BehindOld,
    /// The word behind the new ones is written.
    BehindNew,
}

pub fn faults() -> Vec<(Fault, Shape, &'static str)> {
    let left = (0..OLD_LENGTH)
        .map(|word| (Fault::WordLeft(word), Shape::Carrying, "carrying over that leaves a word"));
    FAULTS.into_iter().chain(left).collect()
}

const FAULTS: [(Fault, Shape, &str); 13] = [
    (Fault::EmptyGetsOne, Shape::Carrying, "carrying over no terms to 1"),
    (Fault::EmptyGetsOne, Shape::Zeros, "carrying over no terms to 1"),
    (Fault::AnyGetsZero, Shape::Carrying, "carrying over anything to 0"),
    (Fault::AnyGetsZero, Shape::Zeros, "carrying over anything to 0"),
    (Fault::ZeroGetsZero, Shape::Carrying, "carrying over zeros to 0"),
    (Fault::ZeroGetsZero, Shape::Zeros, "carrying over zeros to 0"),
    (Fault::LastLeft, Shape::Carrying, "carrying over that leaves the last word"),
    (Fault::CountCut, Shape::Carrying, "carrying over a count in 16 bits"),
    (Fault::Joined, Shape::Trees, "carrying over that adds to the new words"),
    (Fault::OldCleared, Shape::Carrying, "carrying over that empties the old words"),
    (Fault::OldCounted, Shape::Carrying, "carrying over that writes the old count"),
    (Fault::BehindOld, Shape::Carrying, "carrying over that writes behind the old words"),
    (Fault::BehindNew, Shape::Carrying, "carrying over that writes behind the new words"),
];

impl Fault {
    pub fn spoil(self, carried: &mut Carried) {
        if carried.refusal != 0 {
            return;
        }
        let total = Total::of_old(&carried.before[0]);
        let held = &carried.before[1];
        let new = carried.new.words_mut();
        match self {
            Fault::EmptyGetsOne if total.count == 0 => new[ZERO_SIGN] = 1,
            Fault::AnyGetsZero => new[ZERO_SIGN] = 0,
            Fault::ZeroGetsZero if total.number == Number::ZERO => new[ZERO_SIGN] = 0,
            Fault::LastLeft => new[ZERO_SIGN] = held[ZERO_SIGN],
            Fault::WordLeft(word) => new[word] = held[word],
            Fault::CountCut => new[WORDS] &= 0xFFFF,
            Fault::Joined => {
                Library.join(carried.new, &mut Lent::new(held));
            }
            _ => self.spoil_beside(carried),
        }
    }

    /// What is not the new total is written.
    fn spoil_beside(self, carried: &mut Carried) {
        match self {
            Fault::OldCleared => carried.old.words_mut().fill(0),
            Fault::OldCounted => carried.old.words_mut()[WORDS] += 1,
            Fault::BehindOld => carried.old.words_and_next()[OLD_LENGTH] = 0,
            Fault::BehindNew => carried.new.words_and_next()[LENGTH] = 0,
            _ => {}
        }
    }
}
