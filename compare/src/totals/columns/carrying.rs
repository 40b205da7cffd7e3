//! Carrying old totals over: fit and unfit ones, of every length, into words of every kind and length.
use super::damaged::{self, any, resized};
use super::misfits::{fit, unfit_as_old};
use super::terms::MINUS_ZERO;
use super::{limits, terms, Column};
use crate::random::Random;
use crate::totals::call::{Call, Turn};
use crate::totals::model::{Total, LENGTH, MOST, OLD_LENGTH};
use crate::totals::number::WORDS;

const COUNTS: u64 = limits::COUNTS.len() as u64;

/// A chunk for each count of the totals at a limit, for each word of those that are disturbed, for each length of the old words and
/// for each of the new ones; and one for what is wrong in several ways.
pub const CHUNKS: u64 = COUNTS + damaged::DISTURBED + 2 * damaged::LENGTHS + 1;

pub fn constructed(chunk: u64, r: &mut Random) -> Vec<Column> {
    let disturbed = COUNTS + damaged::DISTURBED;
    let old_lengths = disturbed + damaged::LENGTHS;
    if chunk < COUNTS {
        let totals = limits::totals(limits::COUNTS[chunk as usize]);
        totals.iter().map(|total| carried(total.old_words(), news(r))).collect()
    } else if chunk < disturbed {
        let totals = damaged::disturbed((chunk - COUNTS) as usize, r);
        totals.iter().map(|words| carried(words[..OLD_LENGTH].to_vec(), news(r))).collect()
    } else if chunk < old_lengths {
        of_old_length(damaged::wrong_length((chunk - disturbed) as usize, OLD_LENGTH), r)
    } else if chunk + 1 < CHUNKS {
        of_new_length(damaged::wrong_length((chunk - old_lengths) as usize, LENGTH), r)
    } else {
        every_pair(r)
    }
}

/// The new total is read, takes a -0 as one that is in use does, and is read again.
fn carried(old: Vec<u32>, new: Vec<u32>) -> Column {
    let goes_on = [Call::Read, MINUS_ZERO, Call::Read].map(|call| Turn::On(1, call));
    let turns = [Turn::CarryOver(0, 1)].into_iter().chain(goes_on).collect();
    Column { totals: vec![old, new], turns, alike: Vec::new() }
}

/// What 22 words hold that an old total is carried into: nothing of it stays.
fn news(r: &mut Random) -> Vec<u32> {
    match r.within(0, 3) {
        0 => Total::CLEARED.words(),
        1 => vec![u32::MAX; LENGTH],
        2 => damaged::after((0..3).map(|_| terms::term(r, terms::ANY))).words(),
        _ => any(LENGTH, r),
    }
}

/// With new words of the right length, of the same one, and of the one that the old words should have.
fn of_old_length(length: usize, r: &mut Random) -> Vec<Column> {
    let news = |r: &mut Random| [news(r), any(length, r), any(OLD_LENGTH, r)];
    let olds = damaged::contents(length, r);
    olds.iter().flat_map(|old| news(r).map(|new| carried(old.clone(), new))).collect()
}

/// With old words that fit, that do not, and of the length that the new ones should have.
fn of_new_length(length: usize, r: &mut Random) -> Vec<Column> {
    let news = damaged::contents(length, r);
    let olds =
        |r: &mut Random| [one_of(&fit(), r), one_of(&unfit_as_old(), r), any(OLD_LENGTH, r), any(LENGTH, r)];
    news.iter().flat_map(|new| olds(r).map(|old| carried(old, new.clone()))).collect()
}

fn one_of(totals: &[Total], r: &mut Random) -> Vec<u32> {
    totals[r.within(0, totals.len() as i32 - 1) as usize].old_words()
}

/// Old totals that fit and that do not, and both cut and lengthened, into words that are empty, fit, unfit, cut and lengthened.
fn every_pair(r: &mut Random) -> Vec<Column> {
    let totals = || fit().into_iter().chain(unfit_as_old()).chain(damaged::outermost());
    let olds: Vec<Vec<u32>> = totals()
        .flat_map(|total| [OLD_LENGTH, OLD_LENGTH - 1, LENGTH].map(|length| resized(&total.words(), length)))
        .collect();
    let news: Vec<Vec<u32>> = [LENGTH, LENGTH - 1, LENGTH + 1, 0]
        .into_iter()
        .flat_map(|length| [vec![0; length], vec![u32::MAX; length], resized(&one_of(&fit(), r), length)])
        .collect();
    olds.iter().flat_map(|old| news.iter().map(|new| carried(old.clone(), new.clone()))).collect()
}

/// Old words of any kind, more often fit than not, into any.
pub fn drawn(r: &mut Random) -> Column {
    let count = if r.once_in(2) { r.within(0, MOST as i32) as u32 } else { r.pattern() >> r.within(0, 31) };
    let mut old = damaged::after((0..4).map(|_| terms::term(r, terms::ANY))).old_words();
    match r.within(0, 5) {
        0 => old = any(OLD_LENGTH, r),
        1 => old[WORDS] = count,
        2 => old = Total::minus_zeros(count).old_words(),
        3 => old.resize(r.within(0, 64) as usize, 0),
        _ => {}
    }
    let new = if r.once_in(8) { any(r.within(0, 64) as usize, r) } else { news(r) };
    carried(old, new)
}
