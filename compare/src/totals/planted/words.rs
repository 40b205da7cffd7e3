//! Faults in the words that a call leaves.
use super::Done;
use crate::pattern::{is_subnormal, magnitude};
use crate::totals::call::{Call, Reading};
use crate::totals::columns::Shape;
use crate::totals::model::{Term, Total, LENGTH};
use crate::totals::number::{Number, WORDS};

#[derive(Clone, Copy, Debug)]
pub enum Fault {
    /// No carry goes into this word.
    CarryLost(usize),
    /// A borrow goes no farther than to the word before this.
    BorrowLost(usize),
    /// The terms are not counted.
    Uncounted,
    /// A zero is not counted.
    ZeroUncounted,
    /// A subnormal operand counts as zero.
    SubnormalAsZero,
    /// A negative product is added as if it were positive.
    SignLost,
    /// Clearing leaves the count.
    CountLeft,
    /// Clearing goes a word too far.
    ClearedBeyond,
    /// A reading writes.
    ReadingWrites,
}

pub fn faults() -> Vec<(Fault, Shape, &'static str)> {
    let carries = (1..WORDS).map(|word| (Fault::CarryLost(word), Shape::Carries, "a carry lost into a word"));
    let borrows =
        (1..WORDS).map(|word| (Fault::BorrowLost(word), Shape::Carries, "a borrow that stops before a word"));
    let others = [
        (Fault::Uncounted, Shape::Random, "terms not counted"),
        (Fault::ZeroUncounted, Shape::Random, "a zero not counted"),
        (Fault::SubnormalAsZero, Shape::Tiny, "a subnormal operand as zero"),
        (Fault::SignLost, Shape::Cancelling, "a product's sign lost"),
        (Fault::CountLeft, Shape::Damaged, "clearing that leaves the count"),
        (Fault::ClearedBeyond, Shape::Damaged, "clearing a word too many"),
        (Fault::ReadingWrites, Shape::Random, "a reading that writes"),
    ];
    carries.chain(borrows).chain(others).collect()
}

impl Fault {
    pub fn spoil(self, done: &mut Done) {
        match self {
            Fault::CarryLost(_) | Fault::BorrowLost(_) => self.spoil_carry(done),
            Fault::Uncounted if done.has_added() => {
                done.lent.words_mut()[WORDS] = done.before[WORDS];
            }
            Fault::ZeroUncounted if done.has_added() && Term::of(done.call).number == Number::ZERO => {
                done.lent.words_mut()[WORDS] = done.before[WORDS];
            }
            Fault::SubnormalAsZero
                if done.has_added() && done.call.operands().into_iter().any(is_subnormal) =>
            {
                let total = Total::of(&done.before);
                done.leave(total.with(&Term { number: Number::ZERO, minus_zero: false }));
            }
            Fault::SignLost if done.has_added() => self.spoil_sign(done),
            Fault::CountLeft if done.call == Call::Clear && done.answer == Reading::DONE => {
                done.lent.words_mut()[WORDS] = done.before[WORDS];
            }
            Fault::ClearedBeyond if done.call == Call::Clear && done.answer == Reading::DONE => {
                done.lent.words_and_next()[LENGTH] = 0;
            }
            Fault::ReadingWrites if done.call == Call::Read && done.answer.refusal == 0 => {
                done.lent.words_mut()[WORDS - 1] ^= 1;
            }
            _ => {}
        }
    }

    /// What is below the word has gone down although a term was added, or up although one was taken away.
    fn spoil_carry(self, done: &mut Done) {
        if !done.has_added() {
            return;
        }
        let negative = Term::of(done.call).number.is_negative();
        let below = |words: &[u32], word| words[..word].iter().rev().copied().collect::<Vec<u32>>();
        let after = done.lent.words_mut();
        match self {
            Fault::CarryLost(word) if !negative && below(after, word) < below(&done.before, word) => {
                moved(&mut after[word..WORDS], u32::MAX);
            }
            Fault::BorrowLost(word) if negative && below(after, word) > below(&done.before, word) => {
                moved(&mut after[word..WORDS], 1);
            }
            _ => {}
        }
    }

    fn spoil_sign(self, done: &mut Done) {
        if let Call::Product(x, y) = done.call {
            let total = Total::of(&done.before);
            let number = Term::of(Call::Product(magnitude(x), magnitude(y))).number;
            done.leave(total.with(&Term { number, ..Term::of(done.call) }));
        }
    }
}

/// Words that stand for a number, moved by 1, or by -1 as all ones are.
pub fn moved(words: &mut [u32], by: u32) {
    for word in words {
        *word = word.wrapping_add(by);
        let goes_on = if by == 1 { *word == 0 } else { *word == u32::MAX };
        if !goes_on {
            return;
        }
    }
}
