//! The program compared with the model, shape by shape; and so is the one that it is timed beside.
use super::files::{Shape, Source, SHAPES};
use super::program::Process;
use super::{cases, compare, endings, failures, model};

pub use super::planted::tried;
use crate::processor::Processor;
use crate::workers::SHOWN;
use std::io::Write;
use std::process::ExitCode;

pub struct Options {
    pub seed: u64,
    /// Random files, for each shape that has such.
    pub files: u64,
    /// What is run in the place of `crates/sheet/out/sheet`.
    pub program: Option<String>,
}

/// `compare sheets`: the comparison tried on itself, then the program on floats, then the program.
pub fn run(processor: Processor, options: &Options) -> ExitCode {
    if let Some(what) = distrusted(processor, options.seed) {
        println!("{what}");
        return ExitCode::FAILURE;
    }
    match tried(options.seed) {
        Ok(found) => println!("planted faults found in the program, by a shape of files: {found}"),
        Err(missed) => {
            println!("the comparison is at fault: it did not find a planted fault: {missed}");
            return ExitCode::FAILURE;
        }
    }
    // The measure of speed has to give the right text too.
    let (asked, of_peer) = compared_with(&Process::own(&["peer"]), "peer", options);
    let (lines, of_sheet) = compared(options);
    let differences = of_peer + of_sheet;
    println!("{} lines, {differences} differences", asked + lines);
    if differences == 0 {
        ExitCode::SUCCESS
    } else {
        ExitCode::FAILURE
    }
}

pub fn distrusted(processor: Processor, seed: u64) -> Option<String> {
    cases::distrusted(processor, seed).map(|what| format!("the reference for the sheets is at fault: {what}"))
}

/// How many lines there were, and differences.
pub fn compared(options: &Options) -> (u64, usize) {
    let program = options.program.as_deref().map_or_else(Process::sheet, Process::named);
    if let Some(what) = program.missing() {
        println!("sheet     {what}");
        return (0, 1);
    }
    let (lines, differences) = compared_with(&program, "sheet", options);
    (lines, differences + not_said(&program))
}

/// The trials of calls that fail which the program does not pass. What is said of them is its own.
fn not_said(program: &Process) -> usize {
    reported("sheet", "failures", failures::COUNT, &failures::failed(program))
}

fn compared_with(program: &Process, name: &str, options: &Options) -> (u64, usize) {
    let (mut lines, mut differences) = (0, 0);
    for shape in SHAPES {
        let source = Source { shape, seed: options.seed, files: options.files };
        let outcome = compare::compare(program, &source);
        compare::report(name, &source, &outcome, SHOWN - differences);
        lines += outcome.asked;
        differences += outcome.differences.len();
        if differences >= SHOWN {
            println!("stopped at the tenth difference");
            return (lines, SHOWN);
        }
    }
    (lines, differences + not_ended(program, name))
}

/// The trials of endings that the program fails.
fn not_ended(program: &Process, name: &str) -> usize {
    reported(name, "endings", endings::COUNT, &endings::failed(program))
}

fn reported(name: &str, kind: &str, trials: usize, failed: &[String]) -> usize {
    println!(
        "{name:<10}{kind:<12}{trials:>9} trials     {}",
        if failed.is_empty() { "no difference" } else { "DIFFERENT" }
    );
    failed.iter().for_each(|what| println!("    {what}"));
    failed.len()
}

/// `compare sheets-input SHAPE NUMBER`: a file, to be asked again.
pub fn input(words: &[String]) -> Option<ExitCode> {
    let (shape, number, seed) = match words {
        [shape, number] => (shape, number, 1),
        [shape, number, option, seed] if option == "--seed" => (shape, number, seed.parse().ok()?),
        _ => return None,
    };
    let source = Source { shape: Shape::named(shape)?, seed, files: u64::MAX / 2 };
    let number = number.parse().ok().filter(|&number| number < source.count())?;
    let written = std::io::stdout().write_all(&source.file(number).bytes);
    Some(if written.is_ok() { ExitCode::SUCCESS } else { ExitCode::FAILURE })
}

/// `compare sheets-model`: what the model prints for standard input.
pub fn of_input() -> ExitCode {
    use std::io::Read;
    let mut input = Vec::new();
    let read = std::io::stdin().read_to_end(&mut input);
    let written = read.and_then(|_| std::io::stdout().write_all(model::printed(&input).as_bytes()));
    match written {
        Ok(()) => ExitCode::SUCCESS,
        Err(_) => ExitCode::FAILURE,
    }
}
