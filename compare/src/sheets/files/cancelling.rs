//! Lists whose totals cancel, or are as small or as large as can be.
use super::{drawn, File};
use crate::pairs::pair::Operation::{self, Difference, Product, Sum};
use crate::pattern::{power, LARGEST, SIGN};
use crate::random::Random;
use crate::sheets::line::Asked;

type Row = (Operation, u32, u32);

const LISTS: [(&str, &[Row]); 8] = [
    ("numbers that cancel to zero", &[(Sum, 0xBF80_0000, 0x3380_0000), (Sum, 0x3F80_0000, 0xB380_0000)]),
    ("zeros of minus sign", &[(Sum, SIGN, SIGN), (Product, SIGN, 0), (Difference, SIGN, 0)]),
    // Products that are not exact count too: 1 of the smallest for 3/2, and then for -3/2.
    ("a product with U and X", &[(Product, 3, 0x3F00_0000)]),
    (
        "a product with U and X beside a number that cancels it",
        &[(Product, 3, 0xBF00_0000), (Sum, 0, 1), (Product, 5, 0x3F00_0000)],
    ),
    // 2^24 and half a unit: a tie, then with the smallest number on either side.
    ("a tie", &[(Sum, power(24), power(0))]),
    ("a little above a tie", &[(Sum, power(24), power(0)), (Sum, 1, 0)]),
    ("a little below a tie", &[(Sum, power(24), power(0)), (Difference, 0, 1)]),
    ("the overflow edge", &[(Sum, LARGEST, power(103)), (Sum, 0, 0)]),
];

/// After those: the edge passed and taken back, infinite and NaN pairs between, totals of both infinities, large
/// lists shuffled.
pub const CONSTRUCTED: u64 = LISTS.len() as u64 + 6;

pub fn constructed(number: u64, r: &mut Random) -> File {
    let number = number as usize;
    if let Some(&(about, rows)) = LISTS.get(number) {
        return of_rows(about, rows);
    }
    match number - LISTS.len() {
        0 => of_rows("just above the overflow edge", &[(Sum, LARGEST, power(103)), (Sum, 1, 0)]),
        1 => of_rows(
            "above the overflow edge and back",
            &[(Sum, LARGEST, 1), (Sum, LARGEST, 2), (Difference, 3, LARGEST)],
        ),
        2 => of_rows(
            "below the opposite edge",
            &[(Sum, SIGN | LARGEST, SIGN | power(103)), (Difference, 0, 1)],
        ),
        3 => of_rows(
            "infinite and NaN pairs, which are not added",
            &[(Sum, LARGEST, LARGEST), (Product, 0x7F80_0000, 3), (Sum, 0x7FC0_0000, 1), (Sum, 1, 2)],
        ),
        4 => shuffled(1000, drawn::any_patterns, r),
        _ => shuffled(1000, drawn::question, r),
    }
}

fn of_rows(about: &str, rows: &[Row]) -> File {
    let questions: Vec<Asked> = rows.iter().map(|&(operation, x, y)| Asked::new(operation, x, y)).collect();
    File::of_questions(about, &questions)
}

/// A question whose pair is the opposite one, in one of the ways to ask for it.
fn opposite(asked: Asked, r: &mut Random) -> Asked {
    let Asked { operation, x, y } = asked;
    match (operation, r.once_in(2)) {
        (Product, true) => Asked::new(Product, x ^ SIGN, y),
        (Product, false) => Asked::new(Product, y, x ^ SIGN),
        (Sum, true) => Asked::new(Difference, x ^ SIGN, y),
        (Difference, true) => Asked::new(Sum, x ^ SIGN, y),
        (operation, _) => Asked::new(operation, x ^ SIGN, y ^ SIGN),
    }
}

/// Questions and their opposites in any order, and now and then one that is left over.
fn shuffled(count: usize, question: fn(&mut Random) -> Asked, r: &mut Random) -> File {
    let mut questions = Vec::new();
    for _ in 0..count {
        let asked = question(r);
        questions.extend([asked, opposite(asked, r)]);
    }
    for last in (1..questions.len()).rev() {
        questions.swap(last, r.within(0, last as i32) as usize);
    }
    let left_over = r.within(0, 2);
    questions.extend((0..left_over).map(|_| question(r)));
    let about = format!("{count} questions and their opposites, shuffled, and {left_over} more");
    File::of_questions(about, &questions)
}

pub fn drawn(r: &mut Random) -> File {
    let count = r.within(1, 60) as usize;
    if r.once_in(2) {
        shuffled(count, tiny, r)
    } else {
        shuffled(count, drawn::question, r)
    }
}

/// Products of about 2^-149, most of them not exact.
fn tiny(r: &mut Random) -> Asked {
    let (x, y) = (r.within(1, 9) as u32, power(r.within(-3, 1)) | r.bits(23) as u32);
    Asked::new(Product, x | r.sign() << 31, y)
}
