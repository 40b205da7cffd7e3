//! Joining totals that fit: at every limit of numbers and counts, with carries to every word, and over and over.
use super::{carries, terms, Column};
use crate::random::Random;
use crate::totals::call::{Call, Turn};
use crate::totals::model::{Total, BOUND, MOST};
use crate::totals::number::Number;

/// Counts that come to 65,535, 65,536 and 65,537 with each other.
const COUNTS: [u32; 12] =
    [0, 1, 2, 3, 255, 256, MOST / 2 - 1, MOST / 2, MOST / 2 + 1, MOST - 2, MOST - 1, MOST];

/// Half the terms that a total takes: two such totals are joined, and each has room for any number up to 2^569.
pub const HALF: u32 = MOST / 2;
const PLACES: usize = 569;

/// A chunk for each total at a limit, then one for each place that a carry begins at.
pub fn chunks() -> u64 {
    (at_limits().len() + PLACES) as u64
}

pub fn constructed(chunk: usize) -> Vec<Column> {
    let totals = at_limits();
    match chunk.checked_sub(totals.len()) {
        None => totals.iter().map(|second| pair(&totals[chunk], second)).collect(),
        Some(place) => carried(place as u32),
    }
}

fn pair(first: &Total, second: &Total) -> Column {
    Column::joined(first.words(), second.words())
}

/// For each count the least and greatest numbers that fit, those beside them, and those about zero; and -0 alone.
fn at_limits() -> Vec<Total> {
    let one = Number::at(1, 0);
    let numbers = |count: u32| {
        let limit = Number::at(u64::from(count), BOUND);
        let signed = [limit, limit.minus(&one), one].map(|number| [number, number.opposite()]);
        let fitting = signed.into_iter().flatten().filter(move |_| count > 0);
        fitting.chain([Number::ZERO])
    };
    let totals = |count: u32| {
        let minus_zeros = (count > 0).then(|| Total::minus_zeros(count));
        numbers(count).map(move |number| Total::new(number, count)).chain(minus_zeros)
    };
    COUNTS.into_iter().flat_map(totals).collect()
}

/// A carry that begins at 2^place and runs up to 2^end, for the ends where words begin, for the next place and the last; numbers
/// that cancel; and those beside them, so that the sign turns.
fn carried(place: u32) -> Vec<Column> {
    let (power, one) = (Number::at(1, place), Number::at(1, 0));
    let ends = (1..=17).map(|i| 32 * i).chain([place + 1, PLACES as u32]).filter(|&end| end > place);
    let runs = ends.map(|end| Number::at(1, end).minus(&power)).chain([one, power.minus(&one)]);
    runs.flat_map(|run| {
        let (back, down) = (run.opposite(), power.opposite());
        [(run, power), (back, down), (run, down), (back, power), (run, back), (back, run)]
    })
    .flat_map(|(a, b)| [half(a, b), half(b, a)])
    .collect()
}

fn half(first: Number, second: Number) -> Column {
    let total = |number| Total::new(number, HALF);
    pair(&total(first), &total(second))
}

/// Words of all ones, zeros and the like; or two totals of a few terms.
pub fn drawn(r: &mut Random) -> Column {
    if r.once_in(2) {
        return half(carries::number(r), carries::number(r));
    }
    to_and_fro(r)
}

/// So often that the counts, which grow as Fibonacci's do, come past 65,536.
const JOINS: usize = 28;

/// Each joined to the other in turn, with terms between, until there is no room; then one is cleared, and there is again.
fn to_and_fro(r: &mut Random) -> Column {
    let window = terms::window(r);
    let mut turns = vec![Turn::On(0, terms::term(r, window)), Turn::On(1, terms::term(r, window))];
    for i in 0..JOINS {
        let (first, second) = (i % 2, 1 - i % 2);
        turns.extend([Turn::Join(first, second), Turn::On(first, Call::Read)]);
        if r.once_in(4) {
            turns.push(Turn::On(second, terms::term(r, window)));
        }
    }
    turns.extend([Turn::On(0, Call::Clear), Turn::Join(0, 1), Turn::Join(1, 0), Turn::On(0, Call::Read)]);
    Column { totals: vec![Total::CLEARED.words(), Total::CLEARED.words()], turns, alike: Vec::new() }
}
