//! Questions of special patterns, of any patterns, and of the shapes that the pairs are asked.
use super::File;
use crate::pairs::pair::{Operation, OPERATIONS};
use crate::pairs::questions;
use crate::pattern::{power, INFINITY, LARGEST, NAN, SIGN, SMALLEST_NORMAL};
use crate::random::Random;
use crate::sheets::line::Asked;
use crate::sums::number;

pub fn operation(r: &mut Random) -> Operation {
    OPERATIONS[r.within(0, 2) as usize]
}

/// Of any shape.
pub fn question(r: &mut Random) -> Asked {
    let operation = operation(r);
    let shapes = questions::shapes(operation);
    let shape = shapes[r.within(0, shapes.len() as i32 - 1) as usize];
    let q = questions::question(operation, shape, r);
    Asked::new(operation, q.x, q.y)
}

pub fn any_patterns(r: &mut Random) -> Asked {
    Asked::new(operation(r), r.pattern(), r.pattern())
}

/// Normal numbers whose exponents lie within 3 of 1's.
pub fn near(r: &mut Random) -> Asked {
    let operation = operation(r);
    let (first, second) = (r.within(124, 130), r.within(124, 130));
    Asked::new(operation, number(r, first), number(r, second))
}

fn length(r: &mut Random) -> i32 {
    let longest = if r.once_in(8) { 2000 } else { 100 };
    r.within(1, longest)
}

pub fn uniform(r: &mut Random) -> File {
    let lines = length(r);
    let questions: Vec<Asked> = (0..lines).map(|_| any_patterns(r)).collect();
    File::of_questions(format!("{lines} questions of any patterns"), &questions)
}

pub fn shaped(r: &mut Random) -> File {
    let lines = length(r);
    let questions: Vec<Asked> = (0..lines).map(|_| question(r)).collect();
    File::of_questions(format!("{lines} questions of the pairs' shapes"), &questions)
}

/// Both signs of each.
const SPECIALS: [u32; 22] = [
    0,
    1,
    2,
    SMALLEST_NORMAL - 1,
    SMALLEST_NORMAL,
    SMALLEST_NORMAL + 1,
    power(-102),
    power(-24),
    power(-1),
    power(0) - 1,
    power(0),
    power(0) + 1,
    power(1),
    power(103),
    power(103) + 1,
    LARGEST,
    INFINITY,
    INFINITY + 1,
    NAN - 1,
    NAN,
    NAN + 1,
    0x7FC1_2345,
];

pub const SPECIAL_FILES: u64 = OPERATIONS.len() as u64;

/// Every pair of them, an operation a file.
pub fn specials(number: u64) -> File {
    let operation = OPERATIONS[number as usize];
    let signed: Vec<u32> = SPECIALS.iter().flat_map(|&x| [x, x | SIGN]).chain([u32::MAX]).collect();
    let pairs = signed.iter().flat_map(|&x| signed.iter().map(move |&y| (x, y)));
    let questions: Vec<Asked> = pairs.map(|(x, y)| Asked::new(operation, x, y)).collect();
    File::of_questions(format!("{} of every pair of special patterns", operation.name()), &questions)
}
