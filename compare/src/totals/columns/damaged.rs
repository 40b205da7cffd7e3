//! Words that no calls left: totals with a word disturbed, other words, and other lengths.
use super::{apart, terms, Column};
use crate::pattern::{INFINITY, LARGEST, NAN, SIGN};
use crate::random::Random;
use crate::totals::call::Call;
use crate::totals::model::{answer, Total, BOUND, LENGTH, MOST, ZERO_SIGN};
use crate::totals::number::{Number, WORDS};

/// Each kind of call on one total, with good operands and with bad ones.
pub const EVERY_CALL: [Call; 13] = [
    Call::Clear,
    Call::Pattern(0x3F80_0000),
    Call::Pattern(SIGN | LARGEST),
    Call::Pattern(SIGN),
    Call::Pattern(INFINITY),
    Call::Pattern(0xFF80_0001),
    Call::Product(LARGEST, LARGEST),
    Call::Product(1, SIGN | 1),
    Call::Product(0, SIGN | 1),
    Call::Product(0, SIGN | INFINITY),
    Call::Product(NAN, 0x3F80_0000),
    Call::Product(0x3F80_0000, INFINITY),
    Call::Read,
];

/// A chunk for each word of each of twelve totals, then one for the outermost numbers.
pub const CHUNKS: u64 = DISTURBED + 1;
pub const DISTURBED: u64 = (TOTALS * LENGTH) as u64;
const TOTALS: usize = 12;

pub fn constructed(chunk: usize, r: &mut Random) -> Vec<Column> {
    if chunk == TOTALS * LENGTH {
        return outermost().iter().flat_map(|total| apart(&total.words(), &EVERY_CALL)).collect();
    }
    disturbed(chunk, r).iter().flat_map(|words| apart(words, &EVERY_CALL)).collect()
}

/// One of the totals, with every other value that is tried in one of its words.
pub fn disturbed(chunk: usize, r: &mut Random) -> Vec<Vec<u32>> {
    let (start, word) = (total(chunk / LENGTH, r), chunk % LENGTH);
    let with = |value: u32| {
        let mut words = start.clone();
        words[word] = value;
        words
    };
    values(start[word]).into_iter().map(with).collect()
}

/// What a word becomes: also the counts about 65,536.
fn values(word: u32) -> Vec<u32> {
    let flipped = (0..32).map(|bit| word ^ (1 << bit));
    let others = [0, u32::MAX, word.wrapping_add(1), word.wrapping_sub(1), MOST - 1, MOST, MOST + 1];
    flipped.chain(others).collect()
}

/// Cleared; after a +0; after a few terms; full, of random and of the largest terms; at the limit; the opposites of these; and
/// one -0, and as many as a total takes.
fn total(number: usize, r: &mut Random) -> Vec<u32> {
    let total = match number / 2 {
        0 => Total::new(Number::ZERO, number as u32 % 2),
        1 => after((0..5).map(|_| terms::term(r, terms::ANY))),
        2 => Total { count: MOST, ..after((0..5).map(|_| terms::term(r, terms::HIGHEST))) },
        3 => Total::new(Number::at((1 << 48) - (1 << 25) + 1, BOUND - 48 + 16), MOST),
        4 => Total::new(Number::at(3, BOUND), 3),
        _ => Total::minus_zeros([1, MOST][number % 2]),
    };
    let number = if number.is_multiple_of(2) { total.number } else { total.number.opposite() };
    Total { number, ..total }.words()
}

/// A total of these terms.
pub fn after(calls: impl Iterator<Item = Call>) -> Total {
    let mut words = Total::CLEARED.words();
    for call in calls {
        answer(call, &mut words);
    }
    Total::of(&words)
}

/// The numbers of least and greatest value that 20 words hold, and those beside them. -2^639 has no opposite.
pub fn outermost() -> Vec<Total> {
    let least = Number::at(1, 639).opposite();
    let one = Number::at(1, 0);
    let greatest = least.plus(&one).opposite();
    let halves = [Number::at(1, 638), Number::at(1, 638).opposite()];
    let numbers = [least, least.plus(&one), greatest, greatest.minus(&one), halves[0], halves[1]];
    let counts = [0, 1, MOST - 1, MOST, MOST + 1, SIGN, u32::MAX];
    numbers.iter().flat_map(|&number| counts.map(|count| Total::new(number, count))).collect()
}

/// 22 words of any kind; half of them with a count that may fit, half with no number, half with a last word that is no more
/// than 2.
pub fn drawn(r: &mut Random) -> Vec<Column> {
    let mut words = any(LENGTH, r);
    if r.once_in(2) {
        words[WORDS] = r.within(0, MOST as i32) as u32;
    }
    if r.once_in(2) {
        words[..WORDS].fill(0);
    }
    if r.once_in(2) {
        words[ZERO_SIGN] = r.within(0, 2) as u32;
    }
    apart(&words, &EVERY_CALL)
}

/// How many other lengths than the right one are tried.
pub const LENGTHS: u64 = 66;

/// 0 to 64 words, but for the right length; and those whose length is the right one in its lowest byte, or in its lowest two.
pub fn wrong_length(chunk: usize, right: usize) -> usize {
    match chunk {
        64 => (1 << 8) + right,
        65 => (1 << 16) + right,
        _ if chunk < right => chunk,
        _ => chunk + 1,
    }
}

pub fn of_length(chunk: usize, r: &mut Random) -> Vec<Column> {
    let length = wrong_length(chunk, LENGTH);
    contents(length, r).iter().flat_map(|words| apart(words, &EVERY_CALL)).collect()
}

/// So many words: zeros, ones, any, and those of a fit total, cut or lengthened by zeros. With 21 words that is a fit old total.
pub fn contents(length: usize, r: &mut Random) -> Vec<Vec<u32>> {
    let fit = after((0..5).map(|_| terms::term(r, terms::ANY))).words();
    let plain = [vec![0; length], vec![u32::MAX; length], resized(&fit, length)];
    plain.into_iter().chain((0..3).map(|_| any(length, r))).collect()
}

pub fn any(length: usize, r: &mut Random) -> Vec<u32> {
    (0..length).map(|_| r.pattern()).collect()
}

pub fn resized(words: &[u32], length: usize) -> Vec<u32> {
    let mut words = words.to_vec();
    words.resize(length, 0);
    words
}
