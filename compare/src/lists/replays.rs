//! Replays of whole lists by one call, and those that are refused; the model of both.
use super::book::Book;
use super::events::{question, LENT, MOST};
use super::fills::{before, wrong_words};
use super::model;
use super::subject::{Arrays, Lents, Question, Subject};
use crate::random::Random;
use crate::totals::model::{LENGTH, OLD_LENGTH};
use crate::totals::subject::Lent;

/// A call: the questions, the words that are lent for their sheets, and the two totals.
pub struct Replay {
    arrays: Arrays,
    words: Vec<u32>,
    first: Vec<u32>,
    second: Vec<u32>,
}

const CLEARED: [u32; LENGTH] = [0; LENGTH];

impl Replay {
    pub fn of(questions: &[Question]) -> Replay {
        Replay {
            arrays: Arrays::of(questions),
            words: before(LENT),
            first: CLEARED.to_vec(),
            second: CLEARED.to_vec(),
        }
    }

    /// The answer; where it is not refused, the words are what the list leaves in them.
    fn answer(&mut self) -> u32 {
        let refusal = self.refusal();
        if refusal != 0 {
            return refusal;
        }
        let mut book = Book::EMPTY;
        for i in 0..self.arrays.operations.len() {
            let q = self.arrays.question(i);
            model::fill(q.operation, q.x, q.y, &mut self.words[..q.lent as usize]);
            book.note(q);
        }
        (self.first, self.second) = (book.first(), book.second());
        0
    }

    /// Tried in this order: arrays of unequal lengths, too many questions, a total that is not cleared, and more
    /// words for a question than are lent.
    fn refusal(&self) -> u32 {
        let cleared = self.first == CLEARED && self.second == CLEARED;
        let longest = self.arrays.counts.iter().max().copied().unwrap_or(0);
        let conditions = [
            (101, !self.arrays.are_equal()),
            (102, self.arrays.operations.len() > MOST),
            (103, !cleared),
            (104, longest as usize > self.words.len()),
        ];
        conditions.into_iter().find(|condition| condition.1).map_or(0, |condition| condition.0)
    }
}

/// What differs, if anything.
pub fn difference<S: Subject>(subject: &S, mut replay: Replay) -> Option<String> {
    let mut lents = Lents {
        words: Lent::new(&replay.words),
        first: Lent::new(&replay.first),
        second: Lent::new(&replay.second),
    };
    let given = subject.replay(&replay.arrays, &mut lents);
    let right = replay.answer();
    if given != right {
        return Some(format!("replay: library {given}, model {right}"));
    }
    let parts = [
        ("sheet", &lents.words, &replay.words),
        ("first total", &lents.first, &replay.first),
        ("second total", &lents.second, &replay.second),
    ];
    let wrong =
        parts.map(|(name, lent, right)| wrong_words(lent, right).map(|w| format!("replay: {name}{w}")));
    wrong.into_iter().flatten().next()
}

/// The conditions that a replay meets are those of the bits of its number, so that 16 in turn have every set; and 64 in turn have
/// each of them with every way that a total is not cleared.
pub fn refused(number: u64, r: &mut Random) -> Replay {
    let [unequal, many, uncleared, long] = [0, 1, 2, 3].map(|bit| number >> bit & 1 == 1);
    let count = if many { MOST as i32 + r.within(1, 2) } else { r.within(2, 12) };
    // Where there are too many, the same few again and again.
    let few: Vec<Question> = (0..16).map(|_| small(r)).collect();
    let questions: Vec<Question> = few.iter().copied().cycle().take(count as usize).collect();
    let mut replay = Replay::of(&questions);
    if long {
        replay.arrays.counts[r.within(0, count - 2) as usize] = LENT + 1 + r.bits(8) as u32;
    }
    if unequal {
        make_unequal(&mut replay.arrays, r);
    }
    if uncleared {
        let total = if r.once_in(2) { &mut replay.first } else { &mut replay.second };
        spoil(number >> 4 & 3, total, r);
    }
    replay
}

fn small(r: &mut Random) -> Question {
    let lent = r.within(0, LENT as i32) as u32;
    question(r.within(0, 4) as u32, lent, r)
}

fn make_unequal(arrays: &mut Arrays, r: &mut Random) {
    let array = match r.within(0, 3) {
        0 => &mut arrays.operations,
        1 => &mut arrays.xs,
        2 => &mut arrays.ys,
        _ => &mut arrays.counts,
    };
    if r.once_in(2) {
        array.push(1);
    } else {
        array.pop();
    }
}

/// A word more or less, a last word of 1, or any word that is not 0.
fn spoil(way: u64, total: &mut Vec<u32>, r: &mut Random) {
    match way {
        0 => total.push(0),
        1 => total.truncate(OLD_LENGTH),
        2 => total[LENGTH - 1] = 1,
        _ => total[r.within(0, LENGTH as i32 - 1) as usize] = 1 << r.within(0, 31),
    }
}
