//! Columns in which a carry or a borrow runs far, from every place and to every word.
use super::terms::{self, opposite, HIGHEST_PRODUCT};
use super::{read_after, Column};
use crate::pattern::SIGN;
use crate::random::Random;
use crate::totals::call::Call;
use crate::totals::model::Total;
use crate::totals::number::{Number, WORDS};

/// Terms enough for any number below 2^569, and room for more.
const COUNT: u32 = 60_000;
/// Every such power of two fits with so many terms.
const POWERS: u32 = 570;

/// A chunk for each place that a term's only bit can have, then one for each power of two of a total's.
pub const CHUNKS: u64 = (HIGHEST_PRODUCT + 1 + POWERS) as u64;

pub fn constructed(chunk: u32) -> Vec<Column> {
    if chunk <= HIGHEST_PRODUCT {
        terms::powers(chunk).into_iter().flat_map(|term| from(chunk, term)).collect()
    } else {
        about(chunk - HIGHEST_PRODUCT - 1)
    }
}

/// `term` is 2^place. A carry runs from there up to 2^end, for the ends where words begin and for the last;
/// or through all words, as the total passes zero.
fn from(place: u32, term: Call) -> Vec<Column> {
    let power = Number::at(1, place);
    let ends = (1..=17).map(|i| 32 * i).chain([place + 1, POWERS - 1]).filter(|&end| end > place);
    let runs = ends.map(|end| Number::at(1, end).minus(&power));
    let one = Number::at(1, 0);
    let starts: Vec<Number> = runs.chain([Number::ZERO, one, power.minus(&one)]).collect();
    starts.iter().flat_map(|start| to_and_fro(start, term)).collect()
}

/// Over the start and back and over it again; and the opposite of all this.
fn to_and_fro(start: &Number, term: Call) -> [Column; 2] {
    let calls = [term, opposite(term), opposite(term), opposite(term), term, term];
    let column = |number, calls: Vec<Call>| {
        let calls = calls.into_iter().flat_map(read_after).collect();
        Column::new(Total::new(number, COUNT), calls)
    };
    [column(*start, calls.to_vec()), column(start.opposite(), calls.map(opposite).to_vec())]
}

/// The smallest terms on a power of two, and on the numbers beside it.
fn about(place: u32) -> Vec<Column> {
    let (power, one) = (Number::at(1, place), Number::at(1, 0));
    let smallest = [Call::Product(1, 1), Call::Pattern(1), Call::Product(1, 0x3F80_0001)];
    let starts = [power.minus(&one), power, power.plus(&one)];
    starts.iter().flat_map(|start| smallest.into_iter().flat_map(|term| to_and_fro(start, term))).collect()
}

const TERMS: usize = 10;

/// Words of all ones, of zeros and the like, and any terms.
pub fn drawn(r: &mut Random) -> Column {
    let number = number(r);
    let calls = (0..TERMS).flat_map(|_| read_after(terms::term(r, terms::ANY))).collect();
    Column::new(Total::new(number, COUNT), calls)
}

/// Such words, of a number below 2^569.
pub fn number(r: &mut Random) -> Number {
    let mut words: Vec<u32> = (0..WORDS).map(|_| word(r)).collect();
    let highest = if r.once_in(2) { -r.within(0, 1) } else { r.within(1 - (1 << 25), (1 << 25) - 1) };
    let sign = if highest < 0 { u32::MAX } else { 0 };
    words[17..].copy_from_slice(&[highest as u32, sign, sign]);
    Number::of_words(&words)
}

fn word(r: &mut Random) -> u32 {
    match r.within(0, 9) {
        0..=2 => 0,
        3..=5 => u32::MAX,
        6 => [1, u32::MAX - 1][r.within(0, 1) as usize],
        7 => [SIGN, SIGN - 1][r.within(0, 1) as usize],
        _ => r.pattern(),
    }
}
