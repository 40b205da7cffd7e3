//! `compare check` compares the library and the program with their references, `bench` and `sheets-bench` time them, `step`,
//! `pair` and `total` ask the library one question.
mod bench;
mod check;
mod edges;
mod flag;
mod fused;
mod header;
mod library;
mod lists;
mod marking;
mod marks;
mod pairs;
mod pattern;
mod planted;
mod processor;
mod products;
mod questions;
mod random;
mod sheets;
mod software;
mod special;
mod step;
mod steps;
mod subject;
mod sums;
mod totals;
mod workers;

use check::Options;
use pairs::subject::Subject as _;
use pairs::OPERATIONS;
use processor::Processor;
use std::process::ExitCode;
use step::{Question, Step, STEPS};
use subject::{Library, Subject};
use totals::model::LENGTH;

const USAGE: &str = "usage: compare check [OPTION N]... | compare sheets [OPTION N]... | compare lists [OPTION N]...
     | compare marking [OPTION N]...
     | compare bench [--seed N] | compare sheets-bench [--seed N] [--program WORDS]
     | compare step STEP PATTERN PATTERN [PATTERN] | compare pair OPERATION PATTERN PATTERN | compare total [TERM | +]...
     | compare sheets-model | compare peer | compare sheets-input SHAPE NUMBER [--seed N]
    check       all comparisons; sheets: that of the program `sheet` alone; lists: those of filling and of lists alone;
                marking: that of marking alone
    sheets-model, peer   answer question lines of standard input as `sheet` does: by the model, on the processor's floats
    sheets-input         prints a file of question lines that a difference names
    STEP        add, sub, mul or fma, which takes three patterns; a pattern is eight upper-case hexadecimal digits
    OPERATION   sum, dif or mul
    TERM        a pattern, or two with * between, whose product is added; + joins a total of the terms before it and one of those after
    --seed N    the seed of the random questions (default 1)
    --count N   random questions a step, shared by the shapes (default 24000000)
    --pairs N   random questions an operation of the pairs, shared by the shapes (default 16800000)
    --columns N random columns of calls on totals, for each shape that has them (default 20000)
    --fills N   random questions for filling, shared by the shapes (default 2400000)
    --lists N   random lists of questions, for each shape that has them (default 400)
    --markings N   worksheets to be marked, shared by the shapes (default 400000)
    --files N   random files of question lines for the program, for each shape that has them (default 60)
    --program WORDS   what is run in the place of crates/sheet/out/sheet: a path and arguments, with spaces between";

fn main() -> ExitCode {
    let words: Vec<String> = std::env::args().skip(1).collect();
    let Some((command, rest)) = words.split_first() else {
        return wrong_usage();
    };
    let answered = match command.as_str() {
        "step" => one_step(rest),
        "pair" => one_pair(rest),
        "total" => one_total(rest),
        "peer" if rest.is_empty() => return sheets::peer::run(),
        "sheets-model" if rest.is_empty() => return sheets::check::of_input(),
        "sheets-input" => return sheets::check::input(rest).unwrap_or_else(wrong_usage),
        "impostor" if rest.len() == 1 => return sheets::impostor::run(&rest[0]).unwrap_or_else(wrong_usage),
        _ => return measured_or_compared(command, rest),
    };
    let Some(answer) = answered else {
        return wrong_usage();
    };
    println!("{answer}");
    ExitCode::SUCCESS
}

fn measured_or_compared(command: &str, words: &[String]) -> ExitCode {
    let Some(options) = options(words) else {
        return wrong_usage();
    };
    let processor = Processor::detect();
    if let Some(what) = processor.distrusted() {
        println!("the processor's arithmetic is no reference here: {what}");
        return ExitCode::FAILURE;
    }
    match command {
        "check" => check::run(processor, &options),
        "sheets-bench" => sheets::bench::run(options.seed, options.program.as_deref()),
        "lists" => lists::check::run(options.seed, options.fills, options.lists),
        "marking" => marking::check::run(options.seed, options.markings),
        "sheets" => sheets::check::run(processor, &options.sheets()),
        "bench" => benches(processor, options.seed),
        _ => wrong_usage(),
    }
}

fn benches(processor: Processor, seed: u64) -> ExitCode {
    let of_steps = bench::run(processor, seed);
    println!();
    let of_pairs = pairs::bench::run(processor, seed);
    println!();
    let of_totals = totals::bench::run(seed);
    println!();
    let of_marking = marking::bench::run(processor, seed);
    let failed =
        [of_steps, of_pairs, of_totals, of_marking].into_iter().find(|&code| code != ExitCode::SUCCESS);
    failed.unwrap_or(ExitCode::SUCCESS)
}

fn wrong_usage() -> ExitCode {
    eprintln!("{USAGE}");
    ExitCode::from(2)
}

fn patterns(words: &[String]) -> Option<Vec<u32>> {
    words.iter().map(|word| pattern::read(word)).collect()
}

/// Asks the library for one step: result and mark, with a tab between.
fn one_step(words: &[String]) -> Option<String> {
    let (name, words) = words.split_first()?;
    let step = STEPS.into_iter().find(|step| step.name() == name)?;
    let question = match (step, patterns(words)?.as_slice()) {
        (Step::Fma, &[x, y, z]) => Question::three(x, y, z),
        (Step::Add | Step::Sub | Step::Mul, &[x, y]) => Question::two(x, y),
        _ => return None,
    };
    Some(Library.answer(step, question).shown("\t"))
}

/// Asks the library for one pair: first, second and flags, with tabs between.
fn one_pair(words: &[String]) -> Option<String> {
    let (name, words) = words.split_first()?;
    let operation = OPERATIONS.into_iter().find(|operation| operation.name() == name)?;
    let &[x, y] = patterns(words)?.as_slice() else { return None };
    Some(pairs::subject::Library.pair(operation, x, y).shown("\t"))
}

/// Adds up each group of terms, and joins the others to the first: what that reads, first and second, or the first refusal.
fn one_total(words: &[String]) -> Option<String> {
    let mut joined: Option<[u32; LENGTH]> = None;
    for group in words.split(|word| word == "+") {
        let total = match total_of(group)? {
            Ok(total) => total,
            Err(refused) => return Some(refused),
        };
        match joined.as_mut().map(|first| totals::subject::join(first, &total)) {
            None => joined = Some(total),
            Some(0) => {}
            Some(refusal) => return Some(format!("+ is refused: {refusal}")),
        }
    }
    let reading = totals::subject::read(&joined?);
    Some(format!("{:08X}\t{:08X}", reading.first, reading.second))
}

/// A cleared total with the terms added, or the first refusal.
fn total_of(words: &[String]) -> Option<Result<[u32; LENGTH], String>> {
    let mut total = [0; LENGTH];
    totals::subject::clear(&mut total);
    for word in words {
        let terms = word.split('*').map(pattern::read).collect::<Option<Vec<u32>>>()?;
        let refusal = match terms.as_slice() {
            &[x] => totals::subject::add_pattern(&mut total, x),
            &[x, y] => totals::subject::add_product(&mut total, x, y),
            _ => return None,
        };
        if refusal != 0 {
            return Some(Err(format!("{word} is refused: {refusal}")));
        }
    }
    Some(Ok(total))
}

fn options(words: &[String]) -> Option<Options> {
    let mut options = Options {
        seed: 1,
        count: 24_000_000,
        pairs: 16_800_000,
        columns: 20_000,
        fills: 2_400_000,
        lists: 400,
        markings: 400_000,
        files: 60,
        program: None,
    };
    for pair in words.chunks(2) {
        let [name, value] = pair else { return None };
        if name == "--program" {
            options.program = Some(value.clone());
            continue;
        }
        let value = value.parse().ok()?;
        match name.as_str() {
            "--seed" => options.seed = value,
            "--count" => options.count = value,
            "--pairs" => options.pairs = value,
            "--columns" => options.columns = value,
            "--fills" => options.fills = value,
            "--lists" => options.lists = value,
            "--markings" => options.markings = value,
            "--files" => options.files = value,
            _ => return None,
        }
    }
    Some(options)
}
