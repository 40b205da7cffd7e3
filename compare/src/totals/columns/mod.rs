//! The columns of calls that totals are tried with, by shape.
mod cancelling;
mod carries;
mod carrying;
mod damaged;
mod full;
mod halfway;
mod joins;
mod limits;
mod misfits;
mod overflow;
mod random;
pub mod terms;
mod tiny;
mod trees;
mod zeros;

use super::call::{Call, Turn};
use super::model::Total;
use crate::random::Random;

/// Totals, most often one, and calls that are made on them in turn.
pub struct Column {
    /// The words that each begins with.
    pub totals: Vec<Vec<u32>>,
    pub turns: Vec<Turn>,
    /// The totals that hold the same words in the end, whatever the model has.
    pub alike: Vec<usize>,
}

impl Column {
    pub fn new(start: Total, calls: Vec<Call>) -> Column {
        Column::of_words(start.words(), &calls)
    }

    pub fn cleared(calls: Vec<Call>) -> Column {
        Column::new(Total::CLEARED, calls)
    }

    fn of_words(start: Vec<u32>, calls: &[Call]) -> Column {
        let turns = calls.iter().map(|&call| Turn::On(0, call)).collect();
        Column { totals: vec![start], turns, alike: Vec::new() }
    }

    /// The second joined to the first, which is then read.
    fn joined(first: Vec<u32>, second: Vec<u32>) -> Column {
        let turns = vec![Turn::Join(0, 1), Turn::On(0, Call::Read)];
        Column { totals: vec![first, second], turns, alike: Vec::new() }
    }
}

#[derive(Clone, Copy, PartialEq, Eq, Debug)]
pub enum Shape {
    /// Any calls, with a reading after each.
    Random,
    /// 65,536 random terms, and one more.
    Long,
    /// 65,536 of the largest terms, and one more.
    Largest,
    /// Terms and their opposites, in many orders.
    Cancelling,
    /// Carries and borrows that run through the words.
    Carries,
    /// Totals about 2^-150, of products too small to be seen alone.
    Tiny,
    /// Totals at a tie of first or of second, or beside it.
    Halfway,
    /// Totals at 2^128 - 2^103 and above.
    Overflow,
    /// Totals with a word disturbed, and words that never were a total.
    Damaged,
    /// Totals at the limit of what fits.
    Limits,
    /// Other lengths than 22.
    Lengths,
    /// Terms added, totals joined and carried over, in trees of any shape.
    Trees,
    /// Totals at the limits, and carries from word to word, in joining.
    Joins,
    /// Joining where either total does not fit or has another length, or there is no room.
    Misfits,
    /// Zeros of either sign, and products of zeros, joined and carried over.
    Zeros,
    /// Old totals, fit or not and of any length, carried over into words of any kind and length.
    Carrying,
}

pub const SHAPES: [Shape; 16] = [
    Shape::Random,
    Shape::Long,
    Shape::Largest,
    Shape::Cancelling,
    Shape::Carries,
    Shape::Tiny,
    Shape::Halfway,
    Shape::Overflow,
    Shape::Damaged,
    Shape::Limits,
    Shape::Lengths,
    Shape::Trees,
    Shape::Joins,
    Shape::Misfits,
    Shape::Zeros,
    Shape::Carrying,
];

impl Shape {
    pub fn name(self) -> &'static str {
        match self {
            Shape::Random => "random",
            Shape::Long => "long",
            Shape::Largest => "largest",
            Shape::Cancelling => "cancelling",
            Shape::Carries => "carries",
            Shape::Tiny => "tiny",
            Shape::Halfway => "halfway",
            Shape::Overflow => "overflow",
            Shape::Damaged => "damaged",
            Shape::Limits => "limits",
            Shape::Lengths => "lengths",
            Shape::Trees => "trees",
            Shape::Joins => "joins",
            Shape::Misfits => "misfits",
            Shape::Zeros => "zeros",
            Shape::Carrying => "carrying",
        }
    }

    /// How many chunks of constructed columns there are, before the random ones.
    fn constructed(self) -> u64 {
        match self {
            Shape::Random => 0,
            Shape::Long => full::FLAVOURS.len() as u64,
            Shape::Largest => full::REPEATED.len() as u64,
            Shape::Cancelling => cancelling::ORDERS.len() as u64,
            Shape::Carries => carries::CHUNKS,
            Shape::Tiny => 1,
            Shape::Halfway => halfway::CHUNKS,
            Shape::Overflow => overflow::CHUNKS,
            Shape::Damaged => damaged::CHUNKS,
            Shape::Limits => limits::COUNTS.len() as u64,
            Shape::Lengths => damaged::LENGTHS,
            Shape::Trees => trees::FULL.len() as u64,
            Shape::Joins => joins::chunks(),
            Shape::Misfits => misfits::chunks(),
            Shape::Zeros => zeros::CHUNKS,
            Shape::Carrying => carrying::CHUNKS,
        }
    }

    /// Whether random columns follow.
    fn has_random(self) -> bool {
        !matches!(self, Shape::Long | Shape::Largest | Shape::Limits | Shape::Lengths)
    }

    fn construct(self, chunk: u64, r: &mut Random) -> Vec<Column> {
        match self {
            Shape::Random => unreachable!("nothing is constructed"),
            Shape::Long => vec![full::long(full::FLAVOURS[chunk as usize], r)],
            Shape::Largest => vec![full::largest(full::REPEATED[chunk as usize])],
            Shape::Cancelling => vec![cancelling::long(cancelling::ORDERS[chunk as usize], r)],
            Shape::Carries => carries::constructed(chunk as u32),
            Shape::Tiny => tiny::constructed(),
            Shape::Halfway => halfway::constructed(chunk as u32),
            Shape::Overflow => overflow::constructed(chunk as u32),
            Shape::Damaged => damaged::constructed(chunk as usize, r),
            Shape::Limits => limits::constructed(limits::COUNTS[chunk as usize]),
            Shape::Lengths => damaged::of_length(chunk as usize, r),
            Shape::Trees => vec![trees::full(trees::FULL[chunk as usize], r)],
            Shape::Joins => joins::constructed(chunk as usize),
            Shape::Misfits => misfits::constructed(chunk as usize, r),
            Shape::Zeros => zeros::constructed(chunk as usize, r),
            Shape::Carrying => carrying::constructed(chunk, r),
        }
    }

    fn draw(self, r: &mut Random) -> Vec<Column> {
        match self {
            Shape::Random => vec![random::column(r)],
            Shape::Cancelling => vec![cancelling::short(r)],
            Shape::Carries => vec![carries::drawn(r)],
            Shape::Tiny => vec![tiny::drawn(r)],
            Shape::Halfway => vec![halfway::drawn(r)],
            Shape::Overflow => vec![overflow::drawn(r)],
            Shape::Damaged => damaged::drawn(r),
            Shape::Trees => vec![trees::drawn(r)],
            Shape::Joins => vec![joins::drawn(r)],
            Shape::Misfits => vec![misfits::drawn(r)],
            Shape::Zeros => vec![zeros::drawn(r)],
            Shape::Carrying => vec![carrying::drawn(r)],
            Shape::Long | Shape::Largest | Shape::Limits | Shape::Lengths => unreachable!("none is drawn"),
        }
    }
}

/// The columns of one line of the report, in chunks that threads share out.
pub struct Source {
    pub shape: Shape,
    pub seed: u64,
    /// Random columns, where the shape has such.
    pub columns: u64,
}

impl Source {
    pub fn chunks(&self) -> u64 {
        let drawn = if self.shape.has_random() { self.columns } else { 0 };
        self.shape.constructed() + drawn
    }

    /// The columns of one chunk.
    pub fn columns(&self, chunk: u64) -> Vec<Column> {
        let mut r = Random::stream(self.seed, &[400 + self.shape as u64, chunk]);
        if chunk < self.shape.constructed() {
            self.shape.construct(chunk, &mut r)
        } else {
            self.shape.draw(&mut r)
        }
    }
}

/// The call, then a reading of what it left.
fn read_after(call: Call) -> [Call; 2] {
    [call, Call::Read]
}

/// Each call on the same words, not on what the last one left.
fn apart(start: &[u32], calls: &[Call]) -> Vec<Column> {
    calls.iter().map(|&call| Column::of_words(start.to_vec(), &[call])).collect()
}

fn shuffled(mut calls: Vec<Call>, r: &mut Random) -> Vec<Call> {
    for i in (1..calls.len()).rev() {
        let other = r.within(0, i as i32);
        calls.swap(i, other as usize);
    }
    calls
}
