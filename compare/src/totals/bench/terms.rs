//! Times adding to a total beside a plain accumulator of the same size and a sum of floats.
use super::{measured, near_one};
use crate::bench::{median, ratio, shown, QUESTIONS, REPETITIONS};
use crate::pattern::{is_finite, magnitude};
use crate::random::Random;
use crate::step::Question;
use crate::totals::model::{Total, LENGTH, MOST};
use crate::totals::number::WORDS;
use crate::totals::plain::{self, Plain};
use crate::totals::subject;
use std::hint::black_box;
use std::process::ExitCode;

#[derive(Clone, Copy, PartialEq)]
enum Inputs {
    Finite,
    Near,
    NearPlus,
    Like,
}

const INPUTS: [Inputs; 4] = [Inputs::Finite, Inputs::Near, Inputs::NearPlus, Inputs::Like];

/// The term of a column of like ones, or either factor of it: no power of two, so that every word that it reaches changes.
const LIKE: u32 = 0x3FC9_0FDB;

impl Inputs {
    fn name(self) -> &'static str {
        match self {
            Inputs::Finite => "finite",
            Inputs::Near => "near",
            Inputs::NearPlus => "near, plus",
            Inputs::Like => "like",
        }
    }

    fn pattern(self, r: &mut Random) -> u32 {
        match self {
            Inputs::Finite => loop {
                let x = r.pattern();
                if is_finite(x) {
                    return x;
                }
            },
            Inputs::Near => near_one(r),
            Inputs::NearPlus => magnitude(near_one(r)),
            Inputs::Like => LIKE,
        }
    }
}

#[derive(Clone, Copy, PartialEq)]
enum Term {
    Pattern,
    Product,
}

impl Term {
    fn name(self) -> &'static str {
        match self {
            Term::Pattern => "pattern",
            Term::Product => "product",
        }
    }
}

/// Terms of one sweep: as many as a total takes at most.
const TERMS: usize = QUESTIONS;
const _: () = assert!(TERMS <= MOST as usize);

/// One row of the table: the terms, and the times of the three.
struct Row {
    inputs: Inputs,
    term: Term,
    operands: Vec<Question>,
    library: Vec<f64>,
    plain: Vec<f64>,
    floats: Vec<f64>,
}

pub fn run(seed: u64) -> ExitCode {
    let terms = [Term::Pattern, Term::Product];
    let mut rows: Vec<Row> =
        terms.iter().flat_map(|&term| INPUTS.map(|inputs| row(inputs, term, seed))).collect();
    if let Some(row) = rows.iter().find(|row| !agree(row)) {
        println!("not timed, as the totals differ: {} {}", row.term.name(), row.inputs.name());
        return ExitCode::FAILURE;
    }
    // Interleaved: what else the machine does falls on every row alike. The first turn warms up.
    for repetition in 0..=REPETITIONS {
        for row in &mut rows {
            let library = measured(&row.operands, |operands| by_library(row.term, operands));
            let plain = measured(&row.operands, |operands| by_plain(row.term, operands));
            let floats = measured(&row.operands, |operands| by_floats(row.term, operands));
            if repetition > 0 {
                row.library.push(library);
                row.plain.push(plain);
                row.floats.push(floats);
            }
        }
    }
    print_table(&rows);
    ExitCode::SUCCESS
}

fn row(inputs: Inputs, term: Term, seed: u64) -> Row {
    let mut r = Random::stream(seed, &[103, inputs as u64, term as u64]);
    let operands =
        (0..TERMS).map(|_| Question::two(inputs.pattern(&mut r), inputs.pattern(&mut r))).collect();
    Row { inputs, term, operands, library: Vec::new(), plain: Vec::new(), floats: Vec::new() }
}

/// A cleared total after every term: its words. The refusals are gathered, so that no answer is dropped.
fn by_library(term: Term, operands: &[Question]) -> Vec<u32> {
    let mut total = vec![0; LENGTH];
    let cleared = subject::clear(&mut total);
    let refusals = match term {
        Term::Pattern => operands.iter().fold(cleared, |all, q| all | subject::add_pattern(&mut total, q.x)),
        Term::Product => {
            operands.iter().fold(cleared, |all, q| all | subject::add_product(&mut total, q.x, q.y))
        }
    };
    black_box(refusals);
    total
}

/// Through a pointer that the compiler does not see through, as the library is in another object.
fn by_plain(term: Term, operands: &[Question]) -> Plain {
    let mut total = Plain::CLEARED;
    type One = extern "C" fn(&mut Plain, u32);
    type Two = extern "C" fn(&mut Plain, u32, u32);
    match term {
        Term::Pattern => {
            let add = black_box(plain::add_pattern as One);
            operands.iter().for_each(|q| add(&mut total, q.x));
        }
        Term::Product => {
            let add = black_box(plain::add_product as Two);
            operands.iter().for_each(|q| add(&mut total, q.x, q.y));
        }
    }
    total
}

fn by_floats(term: Term, operands: &[Question]) -> f32 {
    let mut total = 0.0;
    type One = extern "C" fn(&mut f32, u32);
    type Two = extern "C" fn(&mut f32, u32, u32);
    match term {
        Term::Pattern => {
            let add = black_box(plain::float_pattern as One);
            operands.iter().for_each(|q| add(&mut total, q.x));
        }
        Term::Product => {
            let add = black_box(plain::float_product as Two);
            operands.iter().for_each(|q| add(&mut total, q.x, q.y));
        }
    }
    total
}

/// The library and the plain accumulator hold the same number, of all the terms.
fn agree(row: &Row) -> bool {
    let library = by_library(row.term, &row.operands);
    let plain = by_plain(row.term, &row.operands).words();
    library[..WORDS] == plain && Total::of(&library).count == row.operands.len() as u32
}

fn print_table(rows: &[Row]) {
    println!("| inputs | term | library ns | plain ns | floats ns | library / plain | library / floats |");
    println!("|---|---|---:|---:|---:|---:|---:|");
    for row in rows {
        let [library, plain, floats] =
            [&row.library, &row.plain, &row.floats].map(|t| shown(Some(median(t.clone()))));
        let [to_plain, to_floats] =
            [&row.plain, &row.floats].map(|t| shown(ratio(Some(&row.library), Some(t))));
        let (inputs, term) = (row.inputs.name(), row.term.name());
        println!("| {inputs} | {term} | {library} | {plain} | {floats} | {to_plain} | {to_floats} |");
    }
    println!();
    println!("Nanoseconds a term, measured as the steps are, over {TERMS} terms a sweep. The total is cleared before each sweep,");
    println!("and each term goes onto what the last one left, so that calls wait for each other.");
    println!("plain: 640 bits in limbs of 64, with no count and no check; floats: one binary32 number, rounded at every term.");
    println!("finite: finite patterns, any exponents; near: exponents within 3 of 1's, any signs; near, plus: without signs;");
    println!("like: one term over and over.");
}
