//! Worksheets marked by hand, which the model has to mark so before it counts as a reference.
use super::model::{mark, Marked, LINE};
use super::worksheet::Line;
use crate::pattern::SIGN;
use std::hint::black_box;

/// The first case that the model does not give.
pub fn distrusted() -> Option<String> {
    let worked =
        WORKED.iter().map(|&(operation, x, y, lines, right)| (operation, x, y, lines.concat(), right));
    worked.chain(counted()).chain(refused()).find_map(|(operation, x, y, words, right)| {
        let given = mark(black_box(operation), x, y, &words);
        let asked = format!("{operation} {x:08X} {y:08X} with {} words {words:X?}", words.len());
        (given != right).then(|| format!("{asked}: {}, not {}", given.shown(), right.shown()))
    })
}

/// An operation, x and y, the words, and how they are marked.
type Case = (u32, u32, u32, Vec<u32>, Marked);

/// So many words of lines that come to 1 and to 2^-24 in turn.
fn counted() -> impl Iterator<Item = Case> {
    COUNTED.iter().map(|&(operation, count, right)| {
        let words = [ONE, SMALL].concat().into_iter().cycle().take(count).collect();
        (operation, 0x3F80_0000, 0x3380_0000, words, right)
    })
}

/// Lines for the sum of 1 and 2^-24, with why they are refused, and which.
fn refused() -> impl Iterator<Item = Case> {
    REFUSED.iter().map(|&(lines, refusal, line)| {
        (1, 0x3F80_0000, 0x3380_0000, lines.concat(), Marked::refused(refusal, line))
    })
}

/// 1 + 2^-24: the pair is 1 and 2^-24.
const ONE: Line = [1, 0x3F80_0000, SIGN, 0, 0x3F80_0000, 0];
const SMALL: Line = [1, 0x3380_0000, SIGN, 0, 0x3380_0000, 0];

const COUNTED: [(u32, usize, Marked); 16] = [
    (1, 2 * LINE, Marked::RIGHT),
    (1, 3 * LINE, Marked::NOT_RIGHT),
    (1, 99 * LINE, Marked::NOT_RIGHT),
    (1, 100 * LINE, Marked::RIGHT),
    (1, 0, Marked::refused(13, 0)),
    (2, LINE, Marked::refused(13, 0)),
    (3, 11, Marked::refused(13, 0)),
    (1, 13, Marked::refused(13, 0)),
    (1, 15, Marked::refused(13, 0)),
    (1, 599, Marked::refused(13, 0)),
    (1, 601, Marked::refused(13, 0)),
    (1, 101 * LINE, Marked::refused(13, 0)),
    (0, 2 * LINE, Marked::refused(10, 0)),
    (4, 100 * LINE, Marked::refused(10, 0)),
    (0, 0, Marked::refused(10, 0)),
    (u32::MAX, 601, Marked::refused(10, 0)),
];

/// The sheet of (1 + 2^-23) + 2^-24, as R9 shows it, and its two lines.
const SHEET: [Line; 8] = [
    [1, 0x3F80_0001, 0x3380_0000, 0, 0x3F80_0002, 1],
    [2, 0x3F80_0002, 0x3F80_0001, 0, 0x3400_0000, 0],
    [2, 0x3380_0000, 0x3400_0000, 0, 0xB380_0000, 0],
    [3, 0x3F7F_FFFF, 0x3F80_0002, 0, 0x3F80_0001, 1],
    [2, 0x3F80_0001, 0x3F80_0002, 0, 0xB400_0000, 0],
    [3, 0x4000_0000, 0xB380_0000, 0, 0xB400_0000, 0],
    [1, 0x3F80_0001, SIGN, 0, 0x3F80_0001, 0],
    [1, 0x3380_0000, SIGN, 0, 0x3380_0000, 0],
];

/// (1 + 2^-23)^2: the product rounded, and what is left of it.
const SQUARE: [Line; 2] = [
    [3, 0x3F80_0001, 0x3F80_0001, 0, 0x3F80_0002, 1],
    [4, 0x3F80_0001, 0x3F80_0001, 0xBF80_0002, 0x2880_0000, 0],
];

/// Overflow, and an infinity that is an operand.
const LARGE: [Line; 2] =
    [[1, 0x7F7F_FFFF, 0x7300_0001, 0, 0x7F80_0000, 1], [1, 0x7F80_0000, SIGN, 0, 0x7F80_0000, 2]];

/// -1 + 1; 1 + 2 = 3; 3 taken as it is; zeros.
const CANCELLED: Line = [1, 0xBF80_0000, 0x3F80_0000, 0, 0, 0];
const THREE: Line = [1, 0x3F80_0000, 0x4000_0000, 0, 0x4040_0000, 0];
const TAKEN: Line = [1, 0x4040_0000, SIGN, 0, 0x4040_0000, 0];
const PLUS_ZERO: Line = [1, 0, SIGN, 0, 0, 0];
const MINUS_ZERO: Line = [1, SIGN, SIGN, 0, SIGN, 0];

const WORKED: [(u32, u32, u32, &[Line], Marked); 27] = [
    (1, 0x3F80_0000, 0x3380_0000, &[ONE, SMALL], Marked::RIGHT),
    (1, 0x3F80_0000, 0x3380_0000, &[SMALL, ONE], Marked::NOT_RIGHT),
    (1, 0x3F80_0000, 0x3380_0000, &[ONE, ONE], Marked::NOT_RIGHT),
    (2, 0x3F80_0000, 0x3380_0000, &[ONE, SMALL], Marked::NOT_RIGHT),
    (1, 0x3F80_0001, 0x3380_0000, &SHEET, Marked::RIGHT),
    (1, 0x3F80_0001, 0x3380_0000, SHEET.last_chunk::<2>().unwrap(), Marked::RIGHT),
    (1, 0x3F80_0001, 0x3380_0000, SHEET.first_chunk::<6>().unwrap(), Marked::NOT_RIGHT),
    // To nearest even, and what that leaves.
    (1, 0x3F80_0001, 0x3380_0000, SHEET.first_chunk::<3>().unwrap(), Marked::NOT_RIGHT),
    // 1 - (-2^-24): y is the pattern as asked, and its flip is allowed.
    (2, 0x3F80_0000, 0xB380_0000, &[ONE, SMALL], Marked::RIGHT),
    (2, 0x3F80_0000, 0xB380_0000, &[ONE, [2, SIGN, 0xB380_0000, 0, 0x3380_0000, 0]], Marked::RIGHT),
    (3, 0x3F80_0001, 0x3F80_0001, &SQUARE, Marked::RIGHT),
    (1, 0x7F7F_FFFF, 0x7300_0001, &LARGE, Marked::RIGHT),
    // Zeros: numbers that cancel come to +0 twice, -0 and -0 to these.
    (1, 0xBF80_0000, 0x3F80_0000, &[CANCELLED, PLUS_ZERO], Marked::RIGHT),
    (1, 0xBF80_0000, 0x3F80_0000, &[CANCELLED, MINUS_ZERO], Marked::NOT_RIGHT),
    (1, SIGN, SIGN, &[MINUS_ZERO, MINUS_ZERO], Marked::RIGHT),
    (1, SIGN, SIGN, &[MINUS_ZERO, PLUS_ZERO], Marked::NOT_RIGHT),
    // 3 and +0. Before its line 3 is nobody's; behind it it is allowed, and so is -3.
    (1, 0x3F80_0000, 0x4000_0000, &[TAKEN, THREE], Marked::refused(14, 1)),
    (1, 0x3F80_0000, 0x4000_0000, &[THREE, TAKEN], Marked::NOT_RIGHT),
    (1, 0x3F80_0000, 0x4000_0000, &[THREE, [3, 0, 0x4040_0000, 0, 0, 0]], Marked::RIGHT),
    (1, 0x3F80_0000, 0x4000_0000, &[THREE, [3, 0, 0xC040_0000, 0, SIGN, 0]], Marked::NOT_RIGHT),
    // NaN: sign and payload are the pair's. A difference flips y's sign, a subtraction does not.
    (1, 0x7FC0_0001, 0, &[[1, 0x7FC0_0001, 0, 0, 0x7FC0_0001, 2]; 2], Marked::RIGHT),
    (1, 0x7FC0_0001, 0, &[[1, 0xFFC0_0001, 0, 0, 0xFFC0_0001, 2]; 2], Marked::NOT_RIGHT),
    (1, 0x7FC0_0001, 0x7FC0_0002, &[[1, 0x7FC0_0002, 0, 0, 0x7FC0_0002, 2]; 2], Marked::NOT_RIGHT),
    (1, 0x7FC0_0001, 0, &[[1, 0x7FC0_0001, 0, 0, 0x7FC0_0001, 1]; 2], Marked::refused(15, 1)),
    (1, 0x7FC0_0001, 0, &[[1, 0x7FC0_0001, 0, 0, 0x7FC0_0000, 2]; 2], Marked::refused(15, 1)),
    (2, 0x3F80_0000, 0x7F81_2345, &[[1, 0x3F80_0000, 0xFF81_2345, 0, 0xFFC1_2345, 2]; 2], Marked::RIGHT),
    (2, 0x3F80_0000, 0x7F81_2345, &[[2, 0x3F80_0000, 0x7F81_2345, 0, 0x7FC1_2345, 2]; 2], Marked::NOT_RIGHT),
];

/// Minus 0 less 0, which is not +0; and a step that is none.
const FALSE: Line = [2, SIGN, 0, 0, 0, 0];
const UNKNOWN: Line = [7, 0, 0, 0, 0, 0];

const REFUSED: [(&[Line], u32, u32); 15] = [
    (&[[0, 0x3F80_0000, SIGN, 0, 0x3F80_0000, 0], SMALL], 14, 1),
    (&[ONE, [5, 0x3380_0000, SIGN, 0, 0x3380_0000, 0]], 14, 2),
    // Operands that are not allowed, one for each place.
    (&[ONE, [1, 0x3F80_0001, SIGN, 0, 0x3F80_0001, 0]], 14, 2),
    (&[ONE, [1, SIGN, 0x4000_0001, 0, 0x4000_0001, 0]], 14, 2),
    (&[[4, 0, 0, 0x3F80_0001, 0x3F80_0001, 0], SMALL], 14, 1),
    // A third that is not used and not 0.
    (&[[1, 0x3F80_0000, SIGN, 1, 0x3F80_0000, 0], SMALL], 14, 1),
    (&[ONE, [1, 0x3380_0000, SIGN, SIGN, 0x3380_0000, 0]], 14, 2),
    // Results and a mark.
    (&[[1, 0x3F80_0000, SIGN, 0, 0x3F80_0001, 0], SMALL], 15, 1),
    (&[ONE, [1, 0x3380_0000, SIGN, 0, 0xB380_0000, 0]], 15, 2),
    (&[ONE, [1, 0x3380_0000, SIGN, 0, 0x3380_0000, 1]], 15, 2),
    (&[ONE, SMALL, FALSE], 15, 3),
    // Both on one line; and the earlier of two.
    (&[ONE, [1, 0x3F80_0001, SIGN, 0, 0x3F80_0000, 0]], 14, 2),
    (&[FALSE, UNKNOWN], 15, 1),
    (&[UNKNOWN, FALSE], 14, 1),
    (&[ONE, FALSE, UNKNOWN, SMALL], 15, 2),
];
