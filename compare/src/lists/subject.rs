//! What is tested: filling and replaying, by the static library.
use super::book::enters;
use super::model::{operation, Filled};
use crate::library;
use crate::pairs::pair::Operation;
use crate::pattern::SIGN;
use crate::totals::subject::{add_pattern, add_product, Lent};

/// What the comparison is of.
pub const TESTED: Library = Library;

/// A question as a list has it: its operation's number, its patterns, and how many words it lends.
#[derive(Clone, Copy, PartialEq, Eq, Debug)]
pub struct Question {
    pub operation: u32,
    pub x: u32,
    pub y: u32,
    pub lent: u32,
}

impl Question {
    pub fn shown(self) -> String {
        let Question { operation, x, y, lent } = self;
        format!("operation {operation} {x:08X} {y:08X} with {lent} words")
    }
}

/// The four arrays of a replay, which may be of unequal lengths.
#[derive(Clone, Default)]
pub struct Arrays {
    pub operations: Vec<u32>,
    pub xs: Vec<u32>,
    pub ys: Vec<u32>,
    pub counts: Vec<u32>,
}

impl Arrays {
    pub fn of(questions: &[Question]) -> Arrays {
        let array = |field: fn(&Question) -> u32| questions.iter().map(field).collect();
        Arrays {
            operations: array(|q| q.operation),
            xs: array(|q| q.x),
            ys: array(|q| q.y),
            counts: array(|q| q.lent),
        }
    }

    /// The question in a place that every array has.
    pub fn question(&self, i: usize) -> Question {
        Question { operation: self.operations[i], x: self.xs[i], y: self.ys[i], lent: self.counts[i] }
    }

    pub fn are_equal(&self) -> bool {
        [&self.xs, &self.ys, &self.counts].iter().all(|array| array.len() == self.operations.len())
    }
}

/// What a replay writes: the words that the questions fill, and the two totals.
pub struct Lents {
    pub words: Lent,
    pub first: Lent,
    pub second: Lent,
}

/// Whatever fills sheets and replays lists: the library, or the library with a planted fault.
pub trait Subject: Sync {
    fn fill(&self, operation: u32, x: u32, y: u32, lent: &mut Lent) -> Filled;
    fn replay(&self, arrays: &Arrays, lents: &mut Lents) -> u32;

    /// What a caller does with a filled question in a list: if it enters, both totals are given their terms. The
    /// refusals of that are gathered.
    fn give(&self, q: Question, sheet: &Filled, totals: &mut [Lent; 2]) -> u32 {
        let [first, second] = totals;
        if enters(sheet) {
            enter(q, sheet, first.words_mut(), second.words_mut())
        } else {
            0
        }
    }
}

/// The foot goes to the first total, what was asked to the second.
pub fn enter(q: Question, sheet: &Filled, first: &mut [u32], second: &mut [u32]) -> u32 {
    let foot = add_pattern(first, sheet.first) | add_pattern(first, sheet.second);
    let asked = match operation(q.operation) {
        Some(Operation::Sum) => add_pattern(second, q.x) | add_pattern(second, q.y),
        Some(Operation::Difference) => add_pattern(second, q.x) | add_pattern(second, q.y ^ SIGN),
        Some(Operation::Product) => add_product(second, q.x, q.y),
        None => 0,
    };
    foot | asked
}

pub struct Library;

// SAFETY, for the two: the functions are proved for all slices, patterns and numbers, touch no memory but the
// slices', which do not overlap, and keep none of it.
impl Subject for Library {
    fn fill(&self, operation: u32, x: u32, y: u32, lent: &mut Lent) -> Filled {
        let words = lent.words_mut();
        unsafe { library::jirmeklo_fill(operation, x, y, words.as_mut_ptr(), words.len()) }
    }

    fn replay(&self, arrays: &Arrays, lents: &mut Lents) -> u32 {
        let Arrays { operations, xs, ys, counts } = arrays;
        let (words, first, second) =
            (lents.words.words_mut(), lents.first.words_mut(), lents.second.words_mut());
        unsafe {
            library::jirmeklo_replay(
                operations.as_ptr(),
                operations.len(),
                xs.as_ptr(),
                xs.len(),
                ys.as_ptr(),
                ys.len(),
                counts.as_ptr(),
                counts.len(),
                words.as_mut_ptr(),
                words.len(),
                first.as_mut_ptr(),
                first.len(),
                second.as_mut_ptr(),
                second.len(),
            )
        }
    }
}
