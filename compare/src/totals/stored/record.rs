//! A column of calls on one old total, and the record of what they left.
use crate::totals::call::{Call, Reading};
use crate::totals::model::Total;

/// Calls, and the words that they are made on.
#[derive(Clone, PartialEq, Eq, Debug)]
pub struct Column {
    /// What it is there to show.
    pub shows: String,
    pub start: Vec<u32>,
    /// Each call is made on the start, not on what the last one left.
    pub apart: bool,
    /// With how often each is made.
    pub calls: Vec<(Call, u32)>,
}

impl Column {
    pub fn new(shows: impl Into<String>, start: Vec<u32>, calls: Vec<Call>) -> Column {
        let calls = calls.into_iter().map(|call| (call, 1)).collect();
        Column { shows: shows.into(), start, apart: false, calls }
    }

    pub fn cleared(shows: impl Into<String>, calls: Vec<Call>) -> Column {
        Column::new(shows, Total::CLEARED.old_words(), calls)
    }

    pub fn apart(self) -> Column {
        Column { apart: true, ..self }
    }
}

/// What a call left, the last one if it was made more than once.
#[derive(Clone, Debug)]
pub struct Left {
    pub answer: u32,
    pub words: Vec<u32>,
    pub reading: Reading,
}

/// A column, with what its start reads and what each of its calls left.
#[derive(Clone, Debug)]
pub struct Record {
    pub column: Column,
    pub start: Reading,
    pub left: Vec<Left>,
}

impl Record {
    /// The state that a line's call is made on, and what it reads.
    pub fn before(&self, line: usize) -> (&[u32], Reading) {
        let state = if self.column.apart { 0 } else { line };
        self.state(state)
    }

    /// The start, or what the call of the line before left.
    pub fn state(&self, number: usize) -> (&[u32], Reading) {
        match number.checked_sub(1).map(|line| &self.left[line]) {
            Some(left) => (&left.words, left.reading),
            None => (&self.column.start, self.start),
        }
    }

    /// How many states the record has.
    pub fn states(&self) -> usize {
        1 + self.left.len()
    }
}
