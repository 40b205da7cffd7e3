//! Lists whose total is zero because all that was added is: -0 alone, or with another zero among them.
use super::{drawn, ended, File};
use crate::pairs::pair::Operation::{self, Difference, Product, Sum};
use crate::pattern::{power, INFINITY, LARGEST, NAN, SIGN};
use crate::random::Random;
use crate::sheets::line::Asked;
use crate::sheets::model::MOST;

type Row = (Operation, u32, u32);

const SUM: Row = (Sum, SIGN, SIGN);
const OTHERS: [Row; 6] = [
    (Difference, SIGN, 0),
    (Product, SIGN, 0),
    (Product, 0, SIGN),
    (Product, SIGN, power(0)),
    (Product, SIGN | LARGEST, 0),
    // Half of the smallest number: the product is not zero, but the pair is -0 and -0, and that is added.
    (Product, SIGN | 1, power(-1)),
];
const PLUS: [Row; 6] = [
    (Sum, 0, 0),
    (Sum, SIGN, 0),
    (Difference, SIGN, SIGN),
    (Product, SIGN, SIGN),
    (Product, 1, power(-1)),
    (Sum, SIGN | power(0), power(0)),
];
/// Nothing is added.
const NOT_FINITE: [Row; 4] = [
    (Sum, LARGEST, LARGEST),
    (Product, INFINITY, SIGN),
    (Sum, SIGN | NAN, SIGN),
    (Difference, SIGN, INFINITY),
];

/// Each question of -0 alone; all of them; all of them with each other zero at the beginning, between and at the end; with nothing
/// that is added, alone and between; and full lists.
pub const CONSTRUCTED: u64 = (ALONE + 1 + 3 * PLUS.len() + 2 + 3) as u64;
const ALONE: usize = 1 + OTHERS.len();

pub fn constructed(number: u64) -> File {
    let all = || [SUM].into_iter().chain(OTHERS).collect::<Vec<Row>>();
    let number = number as usize;
    if number < ALONE {
        return of_rows("a question of -0 alone", &all()[number..=number]);
    }
    match number - ALONE {
        0 => of_rows("questions of -0", &all()),
        1 => of_rows("nothing that is added", &NOT_FINITE),
        2 => of_rows(
            "questions of -0, and nothing else that is added",
            &[&all(), &NOT_FINITE[..], &all()].concat(),
        ),
        3 => full("32,768 questions of -0", OTHERS[3]),
        4 => full("32,767 questions of -0, and one of a product that rounds to it", OTHERS[5]),
        5 => full("32,767 questions of -0, and one of +0", PLUS[0]),
        other => {
            let (plus, place) = (PLUS[(other - 6) / 3], (other - 6) % 3);
            let mut rows = all();
            rows.insert(place * rows.len() / 2, plus);
            of_rows("questions of -0, and one of another zero", &rows)
        }
    }
}

fn of_rows(about: &str, rows: &[Row]) -> File {
    let questions: Vec<Asked> = rows.iter().map(|&row| asked(row)).collect();
    File::of_questions(about, &questions)
}

fn asked((operation, x, y): Row) -> Asked {
    Asked::new(operation, x, y)
}

fn full(about: &str, last: Row) -> File {
    let mut rows = vec![SUM; MOST - 1];
    rows.push(last);
    of_rows(about, &rows)
}

/// Questions of -0, with bad lines and what is not finite between them; into half of the lists another comes, a zero or any.
pub fn drawn(r: &mut Random) -> File {
    let one_of = |rows: &[Row], r: &mut Random| asked(rows[r.within(0, rows.len() as i32 - 1) as usize]);
    let lines = r.within(1, 60);
    let other = if r.once_in(2) { r.within(0, lines - 1) } else { lines };
    let line = |i: i32, r: &mut Random| match r.within(0, 7) {
        _ if i == other && r.once_in(4) => drawn::question(r).shown(),
        _ if i == other => one_of(&PLUS, r).shown(),
        0 => "sum".to_string(),
        1 => one_of(&NOT_FINITE, r).shown(),
        2 => asked(SUM).shown(),
        _ => one_of(&OTHERS, r).shown(),
    };
    let bytes = (0..lines).flat_map(|i| ended(line(i, r))).collect();
    File::new(format!("{lines} lines, most of them of -0"), bytes)
}
