//! Faults in the words that a join leaves.
use super::Joined;
use crate::totals::columns::Shape;
use crate::totals::model::{Total, LENGTH, ZERO_SIGN};
use crate::totals::number::{Number, WORDS};
use crate::totals::planted::words::moved;

#[derive(Clone, Copy, Debug)]
pub enum Fault {
    /// No carry goes into this word.
    CarryLost(usize),
    /// This word of the first stays as it was.
    WordLeft(usize),
    /// The first's count stays as it was.
    CountLeft,
    /// The first has the second's count.
    CountOfSecond,
    /// The first counts one term more.
    CountByOne,
    /// The magnitude of a negative second is added.
    SecondUnsigned,
    /// The magnitude of a negative first is taken.
    FirstUnsigned,
    /// The second is subtracted.
    Subtracted,
    /// The second is added twice.
    Twice,
    /// The first becomes the second.
    Replaced,
    /// Numbers that cancel leave an empty total.
    CancelledUncounted,
    /// The last word is 0 where either total's is.
    SignOfEither,
    /// It is the first's.
    SignOfFirst,
    /// It is the second's.
    SignOfSecond,
    /// It is 0 wherever the sum is.
    SignOfNumber,
    /// It is always 1.
    SignAlwaysOne,
    /// The second's is written, too.
    SignOfBoth,
    /// The second is empty afterwards.
    SecondCleared,
    /// The second is the sum too.
    SecondJoined,
    /// The second's count alone is written.
    SecondCounted,
    /// The word behind the first is written.
    BehindFirst,
    /// The word behind the second is written.
    BehindSecond,
}

pub fn faults() -> Vec<(Fault, Shape, &'static str)> {
    let carries =
        (1..WORDS).map(|word| (Fault::CarryLost(word), Shape::Joins, "joining, a carry lost into a word"));
    let left = (0..WORDS).map(|word| (Fault::WordLeft(word), Shape::Joins, "joining, a word not added"));
    let others = [
        (Fault::CountLeft, Shape::Trees, "joining, counts not added"),
        (Fault::CountOfSecond, Shape::Trees, "joining, the second's count for both"),
        (Fault::CountByOne, Shape::Joins, "joining, a total counted as one term"),
        (Fault::SecondUnsigned, Shape::Trees, "joining, the second's sign lost"),
        (Fault::FirstUnsigned, Shape::Trees, "joining, the first's sign lost"),
        (Fault::Subtracted, Shape::Trees, "joining, the second subtracted"),
        (Fault::Twice, Shape::Trees, "joining, the second added twice"),
        (Fault::Replaced, Shape::Trees, "joining, the second in the first's place"),
        (Fault::CancelledUncounted, Shape::Joins, "joining, numbers that cancel not counted"),
        (Fault::SignOfEither, Shape::Zeros, "joining, a last word of 0 where either is"),
        (Fault::SignOfFirst, Shape::Zeros, "joining, the first's last word alone"),
        (Fault::SignOfSecond, Shape::Zeros, "joining, the second's last word alone"),
        (Fault::SignOfNumber, Shape::Zeros, "joining, a last word of 0 wherever the sum is"),
        (Fault::SignAlwaysOne, Shape::Zeros, "joining, a last word of 1 always"),
        (Fault::SignOfBoth, Shape::Zeros, "joining that writes the second's last word"),
        (Fault::SecondCleared, Shape::Trees, "joining that empties the second"),
        (Fault::SecondJoined, Shape::Trees, "joining that gives both the sum"),
        (Fault::SecondCounted, Shape::Joins, "joining that writes the second's count"),
        (Fault::BehindFirst, Shape::Joins, "joining that writes behind the first"),
        (Fault::BehindSecond, Shape::Joins, "joining that writes behind the second"),
    ];
    carries.chain(left).chain(others).collect()
}

impl Fault {
    pub fn spoil(self, joined: &mut Joined) {
        let totals = joined.totals().filter(|_| joined.refusal == 0);
        let Some((first, second)) = totals else { return };
        match self {
            Fault::CarryLost(word) => lose_carry(word, joined),
            Fault::WordLeft(word) => joined.lent[0].words_mut()[word] = joined.before[0][word],
            Fault::CountLeft => joined.lent[0].words_mut()[WORDS] = first.count,
            Fault::CountOfSecond => joined.lent[0].words_mut()[WORDS] = second.count,
            Fault::CountByOne => joined.lent[0].words_mut()[WORDS] = first.count + 1,
            Fault::SignOfBoth => {
                let last = joined.lent[0].words()[ZERO_SIGN];
                joined.lent[1].words_mut()[ZERO_SIGN] = last;
            }
            _ => match self.sign_word(&first, &second) {
                Some(sign_word) => joined.lent[0].words_mut()[ZERO_SIGN] = sign_word,
                None => self.spoil_number(&first, &second, joined),
            },
        }
    }

    /// The last word, if the fault is in it.
    fn sign_word(self, first: &Total, second: &Total) -> Option<u32> {
        match self {
            Fault::SignOfEither => Some(first.sign_word.min(second.sign_word)),
            Fault::SignOfFirst => Some(first.sign_word),
            Fault::SignOfSecond => Some(second.sign_word),
            Fault::SignOfNumber => Some(u32::from(first.joined(second).number != Number::ZERO)),
            Fault::SignAlwaysOne => Some(1),
            _ => None,
        }
    }

    fn spoil_number(self, first: &Total, second: &Total, joined: &mut Joined) {
        let count = first.count + second.count;
        let (one, other) = (first.number, second.number);
        match self {
            Fault::SecondUnsigned => joined.leave(&one.plus(&other.magnitude()), count),
            Fault::FirstUnsigned => joined.leave(&one.magnitude().plus(&other), count),
            Fault::Subtracted => joined.leave(&one.minus(&other), count),
            Fault::Twice => joined.leave(&one.plus(&other).plus(&other), count),
            Fault::Replaced => joined.leave(&other, second.count),
            Fault::CancelledUncounted if one.plus(&other) == Number::ZERO => joined.leave(&Number::ZERO, 0),
            _ => self.spoil_beside(joined),
        }
    }

    /// What is not the first's is written.
    fn spoil_beside(self, joined: &mut Joined) {
        let [first, second] = &mut joined.lent;
        match self {
            Fault::SecondCleared => second.words_mut().fill(0),
            Fault::SecondJoined => second.words_mut().copy_from_slice(first.words()),
            Fault::SecondCounted => second.words_mut()[WORDS] = first.words()[WORDS],
            Fault::BehindFirst => first.words_and_next()[LENGTH] = 0,
            Fault::BehindSecond => second.words_and_next()[LENGTH] = 0,
            _ => {}
        }
    }
}

/// What is below the word has come out lower than what was added there: a carry went on.
fn lose_carry(word: usize, joined: &mut Joined) {
    let below = |words: &[u32]| words[..word].iter().rev().copied().collect::<Vec<u32>>();
    let added = below(&joined.before[1]);
    let after = joined.lent[0].words_mut();
    if below(after) < added {
        moved(&mut after[word..WORDS], u32::MAX);
    }
}
