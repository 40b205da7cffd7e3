//! Old totals that are carried over, and such as are not.
use super::{sized, words_of, Sparse, EMPTY, MINUS, UNFIT};
use crate::totals::model::{carry_over, LENGTH, MOST, OLD_LENGTH};
use std::hint::black_box;

pub fn distrusted() -> Option<String> {
    carried().or_else(not_carried)
}

/// What the new words are before an old total is carried over.
const BEFORE: u32 = 0xA5A5_A5A5;

fn carried() -> Option<String> {
    CARRIED.iter().find_map(|&total| {
        let mut words = vec![BEFORE; LENGTH];
        let right =
            carry_over(&sized(black_box(total), OLD_LENGTH), &mut words) == 0 && words == words_of(total);
        (!right).then(|| format!("{total:08X?} carried over: {words:08X?}"))
    })
}

fn not_carried() -> Option<String> {
    NOT_CARRIED.iter().find_map(|&(total, old_length, length, refusal)| {
        let mut words = vec![BEFORE; length];
        let given = carry_over(&sized(black_box(total), old_length), &mut words);
        let right = given == refusal && words == vec![BEFORE; length];
        (!right).then(|| format!("{old_length} words of {total:08X?} carried over into {length}: {given}"))
    })
}

/// Totals that come from their first 21 words: the last word goes by the count alone.
const CARRIED: [Sparse; 7] = [
    EMPTY,
    (&[], 0, 1, 1),
    (&[], 0, MOST, 1),
    (&[7], 0, 3, 1),
    MINUS,
    // 2^554 of 2^-298, and 554 = 17 * 32 + 10, is the limit for one term.
    (&[0, 0, 0, 0, 0, 0, 0, 0, 0, 0, 0, 0, 0, 0, 0, 0, 0, 0x400], 0, 1, 1),
    (&[0, 0, 0, 0, 0, 0, 0, 0, 0, 0, 0, 0, 0, 0, 0, 0, 0, 0xFFFF_FC00], u32::MAX, 1, 1),
];

/// A total, the length of the old words that it is cut or lengthened to, that of the new ones, and why it is not carried over.
const NOT_CARRIED: [(Sparse, usize, usize, u32); 10] = [
    (EMPTY, 20, LENGTH, 5),
    (EMPTY, 22, LENGTH, 5),
    (EMPTY, OLD_LENGTH, 21, 5),
    (EMPTY, OLD_LENGTH, 23, 5),
    (EMPTY, 22, 21, 5),
    (UNFIT[0], OLD_LENGTH, 21, 5),
    (UNFIT[1], 22, LENGTH, 5),
    (UNFIT[0], OLD_LENGTH, LENGTH, 6),
    (UNFIT[1], OLD_LENGTH, LENGTH, 6),
    ((&[1, 0, 0, 0, 0, 0, 0, 0, 0, 0, 0, 0, 0, 0, 0, 0, 0, 0x400], 0, 1, 1), OLD_LENGTH, LENGTH, 6),
];
