//! Times the library's pairs beside algorithms 7 and 9 on the processor's floats.
use super::algorithms;
use super::model;
use super::pair::{Operation, Pair, OPERATIONS};
use super::subject::{self, Library, Subject};
use crate::bench::{median, ratio, shown, QUESTIONS, REPETITIONS, SWEEPS};
use crate::pattern::{exact, exponent_field, is_finite};
use crate::processor::Processor;
use crate::random::Random;
use crate::step::Question;
use crate::sums::number;
use std::hint::black_box;
use std::process::ExitCode;
use std::time::Instant;

#[derive(Clone, Copy, PartialEq)]
enum Inputs {
    Uniform,
    Finite,
    Near,
    Halfway,
}

const INPUTS: [Inputs; 4] = [Inputs::Uniform, Inputs::Finite, Inputs::Near, Inputs::Halfway];

impl Inputs {
    fn name(self) -> &'static str {
        match self {
            Inputs::Uniform => "uniform",
            Inputs::Finite => "finite",
            Inputs::Near => "near",
            Inputs::Halfway => "halfway",
        }
    }
}

/// One row of the table: the questions, and the times of both.
struct Row {
    inputs: Inputs,
    operation: Operation,
    questions: Vec<Question>,
    library: Vec<f64>,
    algorithm: Vec<f64>,
}

pub fn run(processor: Processor, seed: u64) -> ExitCode {
    let mut rows: Vec<Row> =
        INPUTS.iter().flat_map(|&inputs| OPERATIONS.map(|operation| row(inputs, operation, seed))).collect();
    if let Some(what) = rows.iter().find_map(|row| disagreement(processor, row)) {
        println!("not timed, as the answers differ: {what}");
        return ExitCode::FAILURE;
    }
    // Interleaved: what else the machine does falls on every row alike. The first turn warms up.
    for repetition in 0..=REPETITIONS {
        for row in &mut rows {
            let library = measured(&row.questions, |questions| by_library(row.operation, questions));
            let algorithm =
                measured(&row.questions, |questions| by_algorithm(processor, row.operation, questions));
            if repetition > 0 {
                row.library.push(library);
                row.algorithm.push(algorithm);
            }
        }
    }
    print_table(&rows);
    ExitCode::SUCCESS
}

fn row(inputs: Inputs, operation: Operation, seed: u64) -> Row {
    let mut r = Random::stream(seed, &[102, inputs as u64, operation as u64]);
    let questions = (0..QUESTIONS).map(|_| question(inputs, operation, &mut r)).collect();
    Row { inputs, operation, questions, library: Vec::new(), algorithm: Vec::new() }
}

/// Drawn until it is one of the kind.
fn question(inputs: Inputs, operation: Operation, r: &mut Random) -> Question {
    loop {
        let q = match inputs {
            Inputs::Uniform | Inputs::Finite => Question::two(r.pattern(), r.pattern()),
            Inputs::Near => Question::two(near_one(r), near_one(r)),
            Inputs::Halfway => perhaps_halfway(operation, r),
        };
        let pair = model::pair(operation, q.x, q.y);
        let wanted = match inputs {
            Inputs::Uniform | Inputs::Near => true,
            Inputs::Finite => is_finite(q.x) && is_finite(q.y) && is_finite(pair.first),
            Inputs::Halfway => is_tie(pair),
        };
        if wanted {
            return q;
        }
    }
}

/// A number whose exponent lies within 3 of 1's.
fn near_one(r: &mut Random) -> u32 {
    let exponent = r.within(124, 130);
    number(r, exponent)
}

/// A number and an odd count of half its units; or odd factors whose product may have 25 bits.
fn perhaps_halfway(operation: Operation, r: &mut Random) -> Question {
    if operation == Operation::Product {
        let first = r.within(2, 23);
        let (a, b) = (r.odd(first as u32), r.odd(26 - first as u32));
        let (x, y) = (exact(r.sign(), a, r.within(-60, 60)), exact(r.sign(), b, r.within(-60, 60)));
        return Question::two(x.expect("normal"), y.expect("normal"));
    }
    let x = near_one(r);
    let bits = r.within(1, 24) as u32;
    let y = exact(r.sign(), r.odd(bits), exponent_field(x) - 151).expect("normal");
    Question::two(x, y)
}

/// Second is half the spacing above a normal first, in the same direction.
fn is_tie(pair: Pair) -> bool {
    exact(pair.first >> 31, 1, exponent_field(pair.first) - 151) == Some(pair.second)
}

/// Answers every question by calls of one function, none of them inlined.
fn by_library(operation: Operation, questions: &[Question]) -> u32 {
    match operation {
        Operation::Sum => each(questions, |q| subject::sum(q.x, q.y)),
        Operation::Difference => each(questions, |q| subject::difference(q.x, q.y)),
        Operation::Product => each(questions, |q| subject::product(q.x, q.y)),
    }
}

/// Through a pointer that the compiler does not see through, as the library is in another object.
fn by_algorithm(processor: Processor, operation: Operation, questions: &[Question]) -> u32 {
    type Two = unsafe extern "C" fn(u32, u32) -> Pair;
    let chosen: Two = match operation {
        Operation::Sum => algorithms::sum,
        Operation::Difference => algorithms::difference,
        Operation::Product if processor.fused_instruction => algorithms::product,
        Operation::Product => algorithms::product_called,
    };
    let two = black_box(chosen);
    // SAFETY: the fma instruction is chosen only where the processor has it.
    each(questions, |q| unsafe { two(q.x, q.y) })
}

/// The numbers xored, so that none is dropped.
#[inline(always)]
fn each(questions: &[Question], answer: impl Fn(&Question) -> Pair) -> u32 {
    questions.iter().fold(0, |all, q| {
        let pair = answer(q);
        all ^ pair.first ^ pair.second.rotate_left(1)
    })
}

/// Nanoseconds a pair.
fn measured(questions: &[Question], sweep: impl Fn(&[Question]) -> u32) -> f64 {
    let start = Instant::now();
    for _ in 0..SWEEPS {
        black_box(sweep(black_box(questions)));
    }
    start.elapsed().as_nanos() as f64 / (SWEEPS * questions.len()) as f64
}

/// A question that the two answer otherwise: a time would say nothing.
fn disagreement(processor: Processor, row: &Row) -> Option<String> {
    let differs = |q: &&Question| {
        let library = Library.pair(row.operation, q.x, q.y).patterns();
        library != algorithms::answer(processor, row.operation, q.x, q.y)
    };
    let q = row.questions.iter().find(differs)?;
    Some(format!("pair {} {:08X} {:08X}", row.operation.name(), q.x, q.y))
}

fn print_table(rows: &[Row]) {
    println!("| inputs | pair | library ns | algorithm ns | library / algorithm |");
    println!("|---|---|---:|---:|---:|");
    for row in rows {
        let [library, algorithm] = [&row.library, &row.algorithm].map(|t| shown(Some(median(t.clone()))));
        let ratio = shown(ratio(Some(&row.library), Some(&row.algorithm)));
        println!("| {} | {} | {library} | {algorithm} | {ratio} |", row.inputs.name(), row.operation.name());
    }
    println!();
    println!("Nanoseconds a pair, measured as the steps are. The library gives the flags too.");
    println!("algorithm: 7 (sum, dif) and 9 (mul) of the paper on augmented operations, on the processor's floats, patterns in");
    println!("and out, without flags.");
    println!("uniform: any patterns; finite: finite patterns, any exponents, whose pair does not overflow; near: normal numbers");
    println!("whose exponents lie within 3 of 1's; halfway: exact results halfway between two numbers.");
}
