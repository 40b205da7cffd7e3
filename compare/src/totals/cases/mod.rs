//! Totals worked by hand, which the model has to give before it counts as a reference.
mod carried;
mod joined;

use super::call::{Call, Reading};
use super::model::{answer, Total, LENGTH, MOST};
use super::number::WORDS;
use crate::pattern::SIGN;
use std::hint::black_box;

/// The first case that the model does not give.
pub fn distrusted() -> Option<String> {
    read().or_else(held).or_else(refused).or_else(joined::distrusted).or_else(carried::distrusted)
}

fn read() -> Option<String> {
    READINGS.iter().find_map(|&(calls, first, second)| {
        let (mut words, calls) = (Total::CLEARED.words(), black_box(calls));
        let done = calls.iter().all(|&call| answer(call, &mut words) == Reading::DONE);
        let reading = answer(Call::Read, &mut words);
        (!done || reading != Reading::of(first, second)).then(|| format!("{calls:?}: {}", reading.shown()))
    })
}

fn held() -> Option<String> {
    HELD.iter().find_map(|&(call, from, held, rest, sign_word)| {
        let mut words = Total::CLEARED.words();
        answer(black_box(call), &mut words);
        (words != held_words(from, held, rest, sign_word)).then(|| format!("{call:?}: {words:08X?}"))
    })
}

/// Zeros up to a word, some words from there, and the same word after these; then a count of 1.
fn held_words(from: usize, held: &[u32], rest: u32, sign_word: u32) -> Vec<u32> {
    let mut words = vec![rest; WORDS];
    words[..from].fill(0);
    words[from..from + held.len()].copy_from_slice(held);
    words.extend([1, sign_word]);
    words
}

fn refused() -> Option<String> {
    REFUSED.iter().find_map(|&(total, length, call, refusal)| {
        let before = sized(black_box(total), length);
        let mut words = before.clone();
        let given = answer(call, &mut words);
        let right = given == Reading::refused(refusal) && words == before;
        (!right).then(|| format!("{call:?} on {length} words of {total:08X?}: {}", given.shown()))
    })
}

/// The lowest words of a number, the word that all others are, a count, and the sign word.
type Sparse = (&'static [u32], u32, u32, u32);

fn words_of((lowest, rest, count, sign_word): Sparse) -> Vec<u32> {
    let mut words = vec![rest; WORDS];
    words[..lowest.len()].copy_from_slice(lowest);
    words.extend([count, sign_word]);
    words
}

/// Cut, or lengthened by zeros.
fn sized(total: Sparse, length: usize) -> Vec<u32> {
    let mut words = words_of(total);
    words.resize(length, 0);
    words
}

const fn sum(x: u32, y: u32) -> [Call; 2] {
    [Call::Pattern(x), Call::Pattern(y)]
}

const fn product(x: u32, y: u32) -> [Call; 1] {
    [Call::Product(x, y)]
}

/// The cases that R10 lists for pairs, as columns, and more about zeros.
const READINGS: [(&[Call], u32, u32); 26] = [
    (&[], 0, 0),
    (&sum(0x3F80_0000, 0x3380_0000), 0x3F80_0000, 0x3380_0000),
    (&sum(0x3F80_0001, 0x3380_0000), 0x3F80_0001, 0x3380_0000),
    (&sum(0x7F7F_FFFF, 0x7300_0000), 0x7F7F_FFFF, 0x7300_0000),
    (&sum(0x7F7F_FFFF, 0x7300_0001), 0x7F80_0000, 0x7F80_0000),
    (&sum(0xFF7F_FFFF, 0xF300_0001), 0xFF80_0000, 0xFF80_0000),
    (&sum(SIGN, SIGN), SIGN, SIGN),
    (&sum(0xBF80_0000, 0x3F80_0000), 0, 0),
    (&product(0x41F8_0000, 0x7D04_2108), 0x7F7F_FFFF, 0x7300_0000),
    (&product(0x0000_0003, 0x3F00_0000), 0x0000_0001, 0x0000_0000),
    (&product(0x8000_0001, 0x3F00_0000), 0x8000_0000, 0x8000_0000),
    (&product(0x3F80_0001, 0x0080_0001), 0x0080_0002, 0x0000_0000),
    (&product(0x3F80_0001, 0x3F80_0001), 0x3F80_0002, 0x2880_0000),
    // -1 and 2^-298: the rest is +2^-298, and its zero takes first's sign.
    (&[Call::Pattern(0xBF80_0000), Call::Product(1, 1)], 0xBF80_0000, 0x8000_0000),
    // Zeros: -0 only where every one is.
    (&[Call::Pattern(SIGN)], SIGN, SIGN),
    (&[Call::Pattern(0)], 0, 0),
    (&sum(SIGN, 0), 0, 0),
    (&sum(0, SIGN), 0, 0),
    (&product(SIGN, 0x3F80_0000), SIGN, SIGN),
    (&product(0xBF80_0000, 0), SIGN, SIGN),
    (&product(0, SIGN), SIGN, SIGN),
    (&product(SIGN, SIGN), 0, 0),
    (&product(SIGN, 0xFF7F_FFFF), 0, 0),
    (&[Call::Pattern(SIGN), Call::Product(SIGN, 1), Call::Product(0x8000_0001, 0)], SIGN, SIGN),
    // What cancels is no -0, and neither is what is too small to be seen.
    (&[Call::Pattern(SIGN), Call::Pattern(1), Call::Pattern(0x8000_0001), Call::Pattern(SIGN)], 0, 0),
    (&[Call::Pattern(SIGN), Call::Product(0x8000_0001, 1), Call::Product(1, 1)], 0, 0),
];

/// A term on a cleared total: the word from which it is not zero, the words there, all after them, and the sign word.
const HELD: [(Call, usize, &[u32], u32, u32); 10] = [
    (Call::Product(1, 1), 0, &[1], 0, 1),
    (Call::Product(0x8000_0001, 1), 0, &[], u32::MAX, 1),
    // 1 is 2^298 of 2^-298, and 298 = 9 * 32 + 10.
    (Call::Pattern(0x3F80_0000), 9, &[0x400], 0, 1),
    // 149 = 4 * 32 + 21.
    (Call::Pattern(0x0000_0001), 4, &[0x0020_0000], 0, 1),
    (Call::Pattern(0x8000_0001), 4, &[0xFFE0_0000], u32::MAX, 1),
    // (2^24 - 1)^2 = 2^48 - 2^25 + 1, at 2^208, which is the place 506 = 15 * 32 + 26.
    (Call::Product(0x7F7F_FFFF, 0x7F7F_FFFF), 15, &[0x0400_0000, 0xFFF8_0000, 0x3FF], 0, 1),
    (Call::Pattern(SIGN), 0, &[], 0, 0),
    (Call::Pattern(0), 0, &[], 0, 1),
    (Call::Product(1, SIGN), 0, &[], 0, 0),
    (Call::Product(SIGN, 0x8000_0001), 0, &[], 0, 1),
];

/// A total, the length that it is cut or lengthened to, a call, and why it is refused.
const REFUSED: [(Sparse, usize, Call, u32); 18] = [
    (EMPTY, 20, Call::Clear, 5),
    (EMPTY, 21, Call::Clear, 5),
    (EMPTY, 23, Call::Read, 5),
    (EMPTY, 0, Call::Pattern(0x7F80_0000), 5),
    ((&[1], 0, 0, 0), LENGTH, Call::Read, 6),
    ((&[1], 0, 0, 1), LENGTH, Call::Pattern(0x7F80_0000), 6),
    ((&[], 0, MOST + 1, 1), LENGTH, Call::Product(1, 1), 6),
    // Above 1; 0 with a number; 1 without terms.
    ((&[], 0, 1, 2), LENGTH, Call::Read, 6),
    ((&[1], 0, 1, u32::MAX), LENGTH, Call::Pattern(SIGN), 6),
    ((&[1], 0, 1, 0), LENGTH, Call::Read, 6),
    ((&[], u32::MAX, MOST, 0), LENGTH, Call::Pattern(SIGN), 6),
    ((&[], 0, 0, 1), LENGTH, Call::Read, 6),
    ((&[], 0, 0, 1), LENGTH, Call::Pattern(0x7FC0_0000), 6),
    ((&[1], 0, 1, 1), LENGTH, Call::Product(0, 0xFF80_0000), 7),
    ((&[], 0, 1, 0), LENGTH, Call::Product(SIGN, 0x7F80_0000), 7),
    ((&[], 0, MOST, 1), LENGTH, Call::Pattern(0x7FC0_0000), 7),
    ((&[], 0, MOST, 0), LENGTH, Call::Pattern(SIGN), 8),
    ((&[1], 0, MOST, 1), LENGTH, Call::Product(0, 0), 8),
];

const EMPTY: Sparse = (&[], 0, 0, 0);
const MINUS: Sparse = (&[], u32::MAX, 1, 1);
/// A number without terms, and a count that no total has.
const UNFIT: [Sparse; 2] = [(&[1], 0, 0, 0), (&[], 0, MOST + 1, 1)];
