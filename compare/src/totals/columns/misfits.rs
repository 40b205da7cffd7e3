//! Joining where something is wrong: with the length or the words of either total, or with the counts together.
use super::damaged::{self, any, resized};
use super::joins::HALF;
use super::{terms, Column};
use crate::pattern::SIGN;
use crate::random::Random;
use crate::totals::model::{Total, BOUND, LENGTH, MOST};
use crate::totals::number::{Number, WORDS};

/// A chunk for each of the totals, which all the others are joined to; then for each word of those that are disturbed; then for
/// each length.
pub fn chunks() -> u64 {
    sides().len() as u64 + damaged::DISTURBED + damaged::LENGTHS
}

pub fn constructed(chunk: usize, r: &mut Random) -> Vec<Column> {
    let sides = sides();
    if let Some(first) = sides.get(chunk) {
        return sides.iter().map(|second| Column::joined(first.clone(), second.clone())).collect();
    }
    let chunk = chunk - sides.len();
    let words = match chunk.checked_sub(damaged::DISTURBED as usize) {
        None => damaged::disturbed(chunk, r),
        Some(length) => damaged::contents(damaged::wrong_length(length, LENGTH), r),
    };
    words.into_iter().flat_map(|words| on_either_side(&words, &sides, r)).collect()
}

/// As the first and as the second, with one of the totals that fit as the other, and with any.
fn on_either_side(words: &[u32], sides: &[Vec<u32>], r: &mut Random) -> Vec<Column> {
    let one_of = |count: usize, r: &mut Random| &sides[r.within(0, count as i32 - 1) as usize];
    let others = [one_of(fit().len(), r), one_of(sides.len(), r)];
    let both = |other: &Vec<u32>| {
        [Column::joined(words.to_vec(), other.clone()), Column::joined(other.clone(), words.to_vec())]
    };
    others.into_iter().flat_map(both).collect()
}

/// Totals with nothing wrong, of another length, unfit by number, unfit by count, by both and by the last word: among each of these
/// some that leave room for the terms of others, and some that do not. What is not 22 words long has a count at its place all the
/// same.
fn sides() -> Vec<Vec<u32>> {
    let fit = fit().into_iter().map(|total| total.words());
    let lengths = fit.clone().flat_map(|words| [0, 1, 21, 23, 44].map(|length| resized(&words, length)));
    let unfit = unfit().into_iter().map(|total| total.words());
    // Two conditions at once: the length stands first.
    let both = [resized(&unfit_by(1, 1).words(), 23), resized(&unfit_by(MOST, -1).words(), 23)];
    fit.chain(lengths).chain(unfit).chain(both).collect()
}

pub fn fit() -> Vec<Total> {
    let total = |count, number| Total::new(number, count);
    let one = Number::at(1, 0);
    vec![
        Total::CLEARED,
        total(1, one),
        total(1, one.opposite()),
        total(HALF, Number::at(u64::from(HALF), BOUND)),
        total(HALF + 1, one),
        total(MOST, Number::at(u64::from(MOST), BOUND).opposite()),
        total(MOST, Number::ZERO),
        Total::minus_zeros(1),
        Total::minus_zeros(MOST),
    ]
}

fn unfit() -> Vec<Total> {
    unfit_as_old().into_iter().chain(unfit_by_last()).collect()
}

/// By number, count or both.
pub fn unfit_as_old() -> Vec<Total> {
    let by_number =
        [0, 1, HALF, HALF + 1, MOST].into_iter().flat_map(|count| [unfit_by(count, 1), unfit_by(count, -1)]);
    let least = Number::at(1, 639).opposite();
    let at_least = [0, 1, MOST].map(|count| Total::new(least, count));
    // Counts whose sum with another is small where it is kept in 32 bits, or in 16.
    let counts = [MOST + 1, 2 * MOST, SIGN, u32::MAX];
    let numbers = [Number::ZERO, Number::at(1, 0).opposite(), least];
    let by_count = counts.into_iter().flat_map(|count| numbers.map(|number| Total::new(number, count)));
    by_number.chain(at_least).chain(by_count).collect()
}

/// Above 1, 0 with a number, 1 without terms.
fn unfit_by_last() -> Vec<Total> {
    let one = Number::at(1, 0);
    let above = [2, 3, 256, SIGN, u32::MAX].into_iter().flat_map(|sign_word| {
        [Total::new(Number::ZERO, 1), Total::new(one, MOST)].map(|total| Total { sign_word, ..total })
    });
    let of_number = [(one, 1), (one.opposite(), HALF), (Number::at(1, 569), MOST)];
    let of_number = of_number.map(|(number, count)| Total { number, ..Total::minus_zeros(count) });
    let of_none = Total { sign_word: 1, ..Total::CLEARED };
    above.chain(of_number).chain([of_none]).collect()
}

/// One above the limit for so many terms, or one below the negative limit.
fn unfit_by(count: u32, sign: i32) -> Total {
    let above = Number::at(u64::from(count), BOUND).plus(&Number::at(1, 0));
    Total::new(if sign < 0 { above.opposite() } else { above }, count)
}

/// Each side with any fault or none.
pub fn drawn(r: &mut Random) -> Column {
    Column::joined(side(r), side(r))
}

fn side(r: &mut Random) -> Vec<u32> {
    let count = if r.once_in(2) { r.within(0, MOST as i32) as u32 } else { r.pattern() >> r.within(0, 31) };
    let mut words = any(LENGTH, r);
    match r.within(0, 6) {
        0 => return resized(&words, r.within(0, 64) as usize),
        1 => words[WORDS] = count,
        2 => words[..WORDS].fill(0),
        3 => words = Total { sign_word: r.within(0, 2) as u32, ..Total::minus_zeros(count) }.words(),
        _ => {
            let two = damaged::after((0..2).map(|_| terms::term(r, terms::ANY)));
            // Now and then the last word says that there was no number.
            let sign_word = u32::from(!r.once_in(8));
            words = Total { count: count.clamp(2, MOST), sign_word, ..two }.words();
        }
    }
    words
}
