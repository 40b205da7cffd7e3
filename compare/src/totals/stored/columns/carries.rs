//! Carries and borrows that run far, from every word that a term can start in.
use super::{full, DOWN, UP};
use crate::pattern::{fields, FRACTION};
use crate::totals::call::Call;
use crate::totals::columns::terms::{opposite, power};
use crate::totals::model::{Term, Total};
use crate::totals::number::Number;
use crate::totals::stored::record::Column;

pub fn columns() -> Vec<Column> {
    let zero =
        Column::cleared("a product of 48 bits from every word, down through zero and back", through_zero());
    let steps =
        Column::cleared("a power of two, the least term down and up, zero, and the opposite", steps());
    let runs = terms().into_iter().flat_map(|(from, term)| [run(&from, term), run(&from, opposite(term))]);
    [zero, steps].into_iter().chain(runs).collect()
}

/// The words that a term can start in.
const STARTS: u32 = 16;

/// A place in a word: by turns one from which 48 bits reach into two words, and one from which they reach into three.
fn place(word: u32) -> u32 {
    32 * word + if word.is_multiple_of(2) { 1 + word } else { 32 - word }
}

fn through_zero() -> Vec<Call> {
    let terms = (0..STARTS).map(|word| full(place(word), place(word) / 2));
    terms.flat_map(|term| [opposite(term), term, term, opposite(term)]).collect()
}

/// At the lowest place of each word, or the highest of the one before.
fn steps() -> Vec<Call> {
    let places = (1..=17).map(|word| 32 * word - word % 2);
    places
        .flat_map(|place| {
            let (up, down) = (power(place), opposite(power(place)));
            [up, DOWN, UP, down, down, UP, DOWN, up]
        })
        .collect()
}

/// A term for each word that it can start in, and what it is.
fn terms() -> Vec<(String, Call)> {
    let products = (0..STARTS).map(|word| {
        let place = place(word);
        (format!("a product that starts in word {word}"), full(place, place - place / 2))
    });
    // The first pattern starts at place 149, in word 4, and the last at 402, in word 12.
    let patterns = (0..9).map(|i| {
        let exponent = 1 + 31 * i;
        let word = (148 + exponent) / 32;
        (format!("a pattern that starts in word {word}"), Call::Pattern(fields(0, exponent, FRACTION)))
    });
    products.chain(patterns).collect()
}

/// Terms enough for any number up to 2^569, and room for more.
const COUNT: u32 = 60_000;

/// From as far below 2^569, or above its opposite, as the term goes: a carry runs to the last word that it can reach. And back.
fn run(from: &str, call: Call) -> Column {
    let term = Term::of(call).number;
    let far = Number::at(1, 569);
    let (run, far) =
        if term.is_negative() { ("a borrow to -2^569", far.opposite()) } else { ("a carry to 2^569", far) };
    let start = Total::new(far.minus(&term), COUNT);
    Column::new(format!("{run} from {from}, and back"), start.old_words(), vec![call, opposite(call)])
}
