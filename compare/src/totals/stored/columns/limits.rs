//! Totals at and near the limit of what fits, a magnitude of count * 2^554.
use super::{DOWN, MINUS_OMEGA, MINUS_SQUARE, OMEGA, SQUARE, UP};
use crate::totals::call::Call;
use crate::totals::model::{Total, BOUND, MOST};
use crate::totals::number::Number;
use crate::totals::stored::record::Column;

pub fn columns() -> Vec<Column> {
    let near = COUNTS.into_iter().flat_map(|count| [false, true].map(|negative| beside(count, negative)));
    near.flatten().chain(above_by_words()).chain(below_by_words()).chain(full()).collect()
}

const COUNTS: [u32; 4] = [1, 2, 1000, MOST - 1];

/// The limit for so many terms, of either sign, moved outwards by so much, or inwards.
struct Start {
    count: u32,
    negative: bool,
    outwards: Number,
}

impl Start {
    fn words(&self) -> Vec<u32> {
        let number = Number::at(u64::from(self.count), BOUND).plus(&self.outwards);
        let number = if self.negative { number.opposite() } else { number };
        Total::new(number, self.count).old_words()
    }

    /// `beside` says where the start is, and `what` what is tried there.
    fn column(&self, beside: &str, what: &str, calls: Vec<Call>) -> Column {
        let sign = if self.negative { "negative " } else { "" };
        let shows = format!("{beside} the {sign}limit for a count of {}: {what}", self.count);
        Column::new(shows, self.words(), calls)
    }
}

/// Terms that go out and in by the least and by the most, each alone; then some in a row, until 8 where the count comes to it.
fn beside(count: u32, negative: bool) -> Vec<Column> {
    let one = Number::at(1, 0);
    let start = |outwards| Start { count, negative, outwards };
    let terms = vec![UP, DOWN, SQUARE, MINUS_SQUARE, OMEGA, MINUS_OMEGA, Call::Pattern(0)];
    let out = if negative { [MINUS_SQUARE, DOWN, UP] } else { [SQUARE, UP, DOWN] };
    vec![
        start(Number::ZERO).column("at", "each term alone", terms.clone()).apart(),
        start(one.opposite()).column("2^-298 inside", "each term alone", terms).apart(),
        start(one).column("2^-298 outside", "6", vec![UP, DOWN, SQUARE, MINUS_OMEGA]),
        start(Number::ZERO).column("at", "terms in a row", out.to_vec()),
    ]
}

/// Only a word below the limit's own tells that these do not fit.
fn above_by_words() -> Vec<Column> {
    let column = |negative: bool, word: u32| {
        let start = Start { count: 2, negative, outwards: Number::at(1, 32 * word + word) };
        let back = if negative { UP } else { DOWN };
        start.column("outside", &format!("6, by a bit of word {word}"), vec![back])
    };
    let negative = [0, 1, 8, 16].map(|word| column(true, word));
    (0..=16).map(|word| column(false, word)).chain(negative).collect()
}

/// These fit.
fn below_by_words() -> Vec<Column> {
    let column = |word: u32| {
        let outwards = Number::at(1, 32 * word + 5).opposite();
        let start = Start { count: 3, negative: word % 2 == 1, outwards };
        start.column("inside", &format!("by a bit of word {word}"), vec![SQUARE, MINUS_SQUARE])
    };
    (0..=16).step_by(3).map(column).collect()
}

/// There is no room for a term until the total is cleared.
fn full() -> [Column; 2] {
    [false, true].map(|negative| {
        let start = Start { count: MOST, negative, outwards: Number::ZERO };
        start.column(
            "at",
            "8, and 7 before 8",
            vec![UP, DOWN, Call::Pattern(0x7F80_0000), Call::Clear, SQUARE],
        )
    })
}
