//! Totals that are joined, and such as are not.
use super::{sized, words_of, Sparse, EMPTY, MINUS, UNFIT};
use crate::totals::model::{join, LENGTH, MOST};
use std::hint::black_box;

pub fn distrusted() -> Option<String> {
    joined().or_else(not_joined)
}

fn joined() -> Option<String> {
    JOINED.iter().find_map(|&(first, second, sum)| {
        let mut words = words_of(black_box(first));
        let right = join(&mut words, &words_of(second)) == 0 && words == words_of(sum);
        (!right).then(|| format!("{second:08X?} joined to {first:08X?}: {words:08X?}"))
    })
}

fn not_joined() -> Option<String> {
    NOT_JOINED.iter().find_map(|&((first, length), (second, second_length), refusal)| {
        let mut words = sized(black_box(first), length);
        let given = join(&mut words, &sized(second, second_length));
        let right = given == refusal && words == sized(first, length);
        (!right).then(|| format!("{second:08X?} joined to {first:08X?}: {given}"))
    })
}

const ONE: [u32; 10] = [0, 0, 0, 0, 0, 0, 0, 0, 0, 0x400];
/// Unfit by the last word alone.
const UNFIT_LAST: [Sparse; 3] = [(&[], 0, 1, 2), (&[1], 0, 1, 0), (&[], 0, 0, 1)];
const FULL: Sparse = (&[], 0, MOST, 1);

/// Two totals, and their sum.
const JOINED: [(Sparse, Sparse, Sparse); 19] = [
    (EMPTY, EMPTY, EMPTY),
    (EMPTY, (&[7], 0, 3, 1), (&[7], 0, 3, 1)),
    ((&[7], 0, 3, 1), EMPTY, (&[7], 0, 3, 1)),
    // 1 and 1 are 2.
    ((&ONE, 0, 1, 1), (&ONE, 0, 1, 1), (&[0, 0, 0, 0, 0, 0, 0, 0, 0, 0x800], 0, 2, 1)),
    // Of 2^-298: -1 and -1, -1 and 1, -1 and 2, 1 and -2.
    (MINUS, MINUS, (&[u32::MAX - 1], u32::MAX, 2, 1)),
    (MINUS, (&[1], 0, 1, 1), (&[], 0, 2, 1)),
    (MINUS, (&[2], 0, 5, 1), (&[1], 0, 6, 1)),
    ((&[1], 0, 1, 1), (&[u32::MAX - 1], u32::MAX, 1, 1), (&[], u32::MAX, 2, 1)),
    // 2^64 - 1 and 2^32 + 1 are 2^64 + 2^32.
    ((&[u32::MAX, u32::MAX], 0, 1, 1), (&[1, 1], 0, 1, 1), (&[0, 1, 1], 0, 2, 1)),
    // -2^32 and 2^32 - 1 are -1.
    ((&[0], u32::MAX, 9, 1), (&[u32::MAX], 0, 1, 1), (&[], u32::MAX, 10, 1)),
    ((&[5], 0, MOST - 1, 1), (&[6], 0, 1, 1), (&[11], 0, MOST, 1)),
    // Zeros: -0 with -0, with +0 on either side, with none on either side; +0 with none; and with a number.
    ((&[], 0, 2, 0), (&[], 0, 3, 0), (&[], 0, 5, 0)),
    ((&[], 0, 2, 0), (&[], 0, 3, 1), (&[], 0, 5, 1)),
    ((&[], 0, 2, 1), (&[], 0, 3, 0), (&[], 0, 5, 1)),
    ((&[], 0, 2, 0), EMPTY, (&[], 0, 2, 0)),
    (EMPTY, (&[], 0, 2, 0), (&[], 0, 2, 0)),
    (EMPTY, (&[], 0, 2, 1), (&[], 0, 2, 1)),
    ((&[], 0, 2, 0), (&[7], 0, 3, 1), (&[7], 0, 5, 1)),
    (MINUS, (&[], 0, MOST - 1, 0), (&[], u32::MAX, MOST, 1)),
];

/// Two totals with the lengths that they are cut or lengthened to, and why they are not joined.
const NOT_JOINED: [((Sparse, usize), (Sparse, usize), u32); 16] = [
    ((EMPTY, 21), (EMPTY, LENGTH), 5),
    ((UNFIT[0], 23), (UNFIT[1], 21), 5),
    ((UNFIT[0], LENGTH), (EMPTY, 21), 6),
    ((UNFIT[1], LENGTH), (UNFIT[0], LENGTH), 6),
    ((UNFIT_LAST[0], LENGTH), (EMPTY, 21), 6),
    ((UNFIT_LAST[1], LENGTH), (EMPTY, LENGTH), 6),
    ((UNFIT_LAST[2], LENGTH), (EMPTY, LENGTH), 6),
    ((EMPTY, LENGTH), (UNFIT[0], 0), 5),
    ((FULL, LENGTH), ((&[], 0, 1, 1), 23), 5),
    ((EMPTY, LENGTH), (UNFIT[0], LENGTH), 6),
    ((EMPTY, LENGTH), (UNFIT_LAST[0], LENGTH), 6),
    ((EMPTY, LENGTH), (UNFIT_LAST[1], LENGTH), 6),
    ((FULL, LENGTH), (UNFIT_LAST[2], LENGTH), 6),
    ((FULL, LENGTH), (UNFIT[1], LENGTH), 6),
    ((FULL, LENGTH), (MINUS, LENGTH), 12),
    (((&ONE, 0, 1, 1), LENGTH), ((&[], 0, MOST, 0), LENGTH), 12),
];
