//! Times joining totals beside a plain addition of the same 640 bits.
use super::{measured, near_one};
use crate::bench::{median, ratio, shown, QUESTIONS, REPETITIONS};
use crate::pattern::{is_finite, magnitude};
use crate::random::Random;
use crate::totals::call::Call;
use crate::totals::model::{Term, Total, BOUND, LENGTH, MOST, OLD_LENGTH};
use crate::totals::number::Number;
use crate::totals::plain::{self, Counted};
use crate::totals::subject;
use std::hint::black_box;
use std::process::ExitCode;

/// What the totals hold that are joined to another.
#[derive(Clone, Copy, PartialEq)]
enum Inputs {
    Any,
    Finite,
    Near,
    NearPlus,
}

const INPUTS: [Inputs; 4] = [Inputs::Any, Inputs::Finite, Inputs::Near, Inputs::NearPlus];

impl Inputs {
    fn name(self) -> &'static str {
        match self {
            Inputs::Any => "any",
            Inputs::Finite => "finite",
            Inputs::Near => "near",
            Inputs::NearPlus => "near, plus",
        }
    }

    fn total(self, r: &mut Random) -> Total {
        if self == Inputs::Any {
            return Total::new(any(r), COUNT);
        }
        let mut finite = || loop {
            let x = if self == Inputs::Finite { r.pattern() } else { near_one(r) };
            if is_finite(x) {
                return if self == Inputs::NearPlus { magnitude(x) } else { x };
            }
        };
        let terms = [Call::Pattern(finite()), Call::Product(finite(), finite())];
        terms.into_iter().fold(Total::CLEARED, |total, call| total.with(&Term::of(call)))
    }
}

/// A number of either sign with bits in every word, as many terms leave it.
fn any(r: &mut Random) -> Number {
    let number = (0..BOUND).step_by(32).fold(Number::ZERO, |number, place| {
        let bits = (BOUND - place).min(32);
        number.plus(&Number::at(r.bits(bits), place))
    });
    if r.once_in(2) {
        number
    } else {
        number.opposite()
    }
}

/// Totals of one sweep. All are joined to one that is empty at first, and come to as many terms as a total takes.
const TOTALS: usize = QUESTIONS;
const COUNT: u32 = 2;
const _: () = assert!(TOTALS * COUNT as usize == MOST as usize);

type Words = [u32; LENGTH];

/// One row of the table: the totals, as each side has them, and the times.
struct Row {
    inputs: Inputs,
    words: Vec<Words>,
    counted: Vec<Counted>,
    library: Vec<f64>,
    plain: Vec<f64>,
}

pub fn run(seed: u64) -> ExitCode {
    let mut rows = INPUTS.map(|inputs| row(inputs, seed));
    if let Some(row) = rows.iter().find(|row| !agree(row)) {
        println!("not timed, as the joined totals differ: {}", row.inputs.name());
        return ExitCode::FAILURE;
    }
    // Interleaved, as with the terms.
    for repetition in 0..=REPETITIONS {
        for row in &mut rows {
            let library = measured(&row.words, by_library);
            let plain = measured(&row.counted, by_plain);
            if repetition > 0 {
                row.library.push(library);
                row.plain.push(plain);
            }
        }
    }
    print_table(&rows);
    ExitCode::SUCCESS
}

fn row(inputs: Inputs, seed: u64) -> Row {
    let mut r = Random::stream(seed, &[104, inputs as u64]);
    let words: Vec<Words> =
        (0..TOTALS).map(|_| inputs.total(&mut r).words().try_into().expect("a total's length")).collect();
    let counted = words.iter().map(|words| Counted::of(words)).collect();
    Row { inputs, words, counted, library: Vec::new(), plain: Vec::new() }
}

/// The total that all are joined to. The refusals are gathered, so that no answer is dropped.
fn by_library(totals: &[Words]) -> Words {
    let mut first = [0; LENGTH];
    let cleared = subject::clear(&mut first);
    black_box(totals.iter().fold(cleared, |all, second| all | subject::join(&mut first, second)));
    first
}

/// Through a pointer that the compiler does not see through, as the library is in another object.
fn by_plain(totals: &[Counted]) -> Counted {
    let mut first = Counted::CLEARED;
    let join = black_box(plain::join as extern "C" fn(&mut Counted, &Counted));
    totals.iter().for_each(|second| join(&mut first, second));
    first
}

/// Both come to the same number and the same count.
fn agree(row: &Row) -> bool {
    let library = by_library(&row.words);
    by_plain(&row.counted).words() == library[..OLD_LENGTH] && Total::of(&library).count == MOST
}

fn print_table(rows: &[Row]) {
    println!("| inputs | library ns | plain ns | library / plain |");
    println!("|---|---:|---:|---:|");
    for row in rows {
        let [library, plain] = [&row.library, &row.plain].map(|t| shown(Some(median(t.clone()))));
        let to_plain = shown(ratio(Some(&row.library), Some(&row.plain)));
        println!("| {} | {library} | {plain} | {to_plain} |", row.inputs.name());
    }
    println!();
    println!("Nanoseconds a join, measured as the steps are: {TOTALS} totals of {COUNT} terms are joined to one, which is cleared");
    println!("before each sweep. Each goes onto what the last one left, so that calls wait for each other.");
    println!("plain: 640 bits in limbs of 64, added with carry, and the counts added; no check.");
    println!("any: any numbers up to 2^{BOUND} of 2^-298, of either sign; the others: a pattern and a product each, as with the terms.");
}
