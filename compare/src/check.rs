//! `compare check`: the comparison tried on itself, then the steps, the pairs, the totals, filling, lists, marking
//! and the program.
use crate::pairs::edges::Edges;
use crate::pairs::{self, cases, OPERATIONS};
use crate::processor::Processor;
use crate::questions::{Source, SHAPES};
use crate::step::STEPS;
use crate::subject::Library;
use crate::totals;
use crate::totals::columns::SHAPES as COLUMN_SHAPES;
use crate::workers::SHOWN;
use crate::{edges, header, lists, marking, planted, sheets, steps};
use std::process::ExitCode;
use std::time::Instant;

pub struct Options {
    pub seed: u64,
    /// Random questions a step.
    pub count: u64,
    /// Random questions an operation of the pairs.
    pub pairs: u64,
    /// Random columns of calls on totals, for each shape that has them.
    pub columns: u64,
    /// Random questions for filling, shared by the shapes.
    pub fills: u64,
    /// Random lists of events, for each shape that has them.
    pub lists: u64,
    /// Worksheets to be marked, shared by the shapes.
    pub markings: u64,
    /// Random files of question lines for the program, for each shape that has them.
    pub files: u64,
    /// What is run in the place of `crates/sheet/out/sheet`.
    pub program: Option<String>,
}

impl Options {
    pub fn sheets(&self) -> sheets::check::Options {
        sheets::check::Options { seed: self.seed, files: self.files, program: self.program.clone() }
    }
}

pub fn run(processor: Processor, options: &Options) -> ExitCode {
    let start = Instant::now();
    let how = if processor.fused_instruction { "its instruction" } else { "the C library's fmaf" };
    println!("reference: the processor, fma by {how}; seed {}", options.seed);
    if !processor.fused_instruction {
        println!(
            "marks of fma are compared with the model alone: fmaf is not asked for the processor's flag"
        );
    }
    if let Some(what) = distrusted(processor, options.seed) {
        println!("{what}");
        return ExitCode::FAILURE;
    }
    let (step_edges, pair_edges) = (edges::patterns(), Edges::new());
    if !finds_planted(processor, &step_edges, &pair_edges, options.seed) {
        return ExitCode::FAILURE;
    }
    println!("the comparison tried on itself, {:.1} s", start.elapsed().as_secs_f64());
    let of_steps = timed("questions", || compared_steps(processor, &step_edges, options));
    let of_pairs = timed("questions of pairs", || compared_pairs(processor, &pair_edges, options));
    let of_totals = timed("calls on totals", || compared_totals(options));
    let of_fills = timed("sheets filled", || lists::check::compared_fills(options.seed, options.fills));
    let of_lists = timed("events of lists", || lists::check::compared_lists(options.seed, options.lists));
    let of_marking = timed("worksheets marked", || marking::check::compared(options.seed, options.markings));
    let of_sheets = timed("lines for the program", || sheets::check::compared(&options.sheets()));
    if of_steps + of_pairs + of_totals + of_fills + of_lists + of_marking + of_sheets == 0 {
        ExitCode::SUCCESS
    } else {
        ExitCode::FAILURE
    }
}

/// What nothing can be compared with: declarations, references, or the stored totals.
fn distrusted(processor: Processor, seed: u64) -> Option<String> {
    let of_header = || {
        let what = header::difference()?;
        Some(format!("the comparison does not declare the library as its header does: {what}"))
    };
    let of_pairs =
        || Some(format!("a reference for the pairs is at fault: {}", cases::distrusted(processor)?));
    let of_totals =
        || Some(format!("the reference for the totals is at fault: {}", totals::cases::distrusted()?));
    let of_stored = || Some(format!("the stored totals are at fault: {}", totals::stored::distrusted()?));
    of_header()
        .or_else(of_pairs)
        .or_else(of_totals)
        .or_else(of_stored)
        .or_else(marking::check::distrusted)
        .or_else(|| sheets::check::distrusted(processor, seed))
}

fn finds_planted(processor: Processor, step_edges: &[u32], pair_edges: &Edges, seed: u64) -> bool {
    let tried = [
        ("the header, against what is declared here", header::tried()),
        ("every step, by the edges and by a shape", planted::tried(processor, step_edges, seed)),
        (
            "every operation of the pairs that can have them, by the edges and by a shape",
            pairs::planted::tried(processor, pair_edges, seed),
        ),
        ("totals, by a shape of columns", totals::planted::tried(seed)),
        ("totals and in the stored file, by that file", totals::planted::stored::tried()),
        ("filling and in lists, by a shape of questions or lists", lists::check::tried(seed)),
        ("marking, by a shape of worksheets", marking::check::tried(seed)),
        ("the program, by a shape of files", sheets::check::tried(seed)),
    ];
    for (place, result) in &tried {
        match result {
            Ok(found) => println!("planted faults found in {place}: {found}"),
            Err(missed) => {
                println!("the comparison is at fault: it did not find a planted fault: {missed}");
            }
        }
    }
    tried.iter().all(|(_, result)| result.is_ok())
}

/// Prints what a comparison came to; the number of differences.
fn timed(what: &str, compared: impl FnOnce() -> (u64, usize)) -> usize {
    let start = Instant::now();
    let (asked, differences) = compared();
    println!("{asked} {what}, {differences} differences, {:.1} s", start.elapsed().as_secs_f64());
    differences
}

/// The edges, then each shape, for each step, and how many of the marks the processor's flag was asked for; how many questions there
/// were, and differences.
fn compared_steps(processor: Processor, edges: &[u32], options: &Options) -> (u64, usize) {
    let count = options.count.div_ceil(SHAPES.len() as u64);
    let shaped = SHAPES.map(|shape| Source::Random { seed: options.seed, shape, count });
    let (mut asked, mut flagged, mut differences) = (0, 0, 0);
    for source in [Source::Edges(edges)].iter().chain(&shaped) {
        for step in STEPS {
            let compared = steps::compare(&Library, processor, step, source);
            steps::report(step, source, &compared, options.seed, SHOWN - differences);
            asked += compared.outcome.asked;
            flagged += compared.flagged;
            differences += compared.outcome.differences.len();
            if differences >= SHOWN {
                println!("stopped at the tenth difference");
                return (asked, SHOWN);
            }
        }
    }
    println!("{flagged} of {asked} marks compared with the processor's flag too, all of them with the model");
    (asked, differences)
}

/// The same for each operation of the pairs.
fn compared_pairs(processor: Processor, edges: &Edges, options: &Options) -> (u64, usize) {
    let (mut asked, mut differences) = (0, 0);
    for operation in OPERATIONS {
        let shapes = pairs::questions::shapes(operation);
        let count = options.pairs.div_ceil(shapes.len() as u64);
        let shaped =
            shapes.iter().map(|&shape| pairs::questions::Source::Random { seed: options.seed, shape, count });
        for source in std::iter::once(pairs::questions::Source::Edges(edges)).chain(shaped) {
            let outcome = pairs::compare::compare(&pairs::subject::Library, processor, operation, &source);
            pairs::compare::report(operation, &source, &outcome, options.seed, SHOWN - differences);
            asked += outcome.asked;
            differences += outcome.differences.len();
            if differences >= SHOWN {
                println!("stopped at the tenth difference");
                return (asked, SHOWN);
            }
        }
    }
    (asked, differences)
}

/// Each shape of columns, then the stored totals, whatever the shapes came to; how many calls there were, and differences.
fn compared_totals(options: &Options) -> (u64, usize) {
    let (called, differences) = compared_columns(options);
    let (of_stored, stored_differences) = totals::stored::compared();
    (called + of_stored, differences + stored_differences)
}

fn compared_columns(options: &Options) -> (u64, usize) {
    let (mut called, mut differences) = (0, 0);
    for shape in COLUMN_SHAPES {
        let source = totals::columns::Source { shape, seed: options.seed, columns: options.columns };
        let outcome = totals::compare::compare(&totals::subject::Library, &source);
        totals::compare::report(&source, &outcome, SHOWN - differences);
        called += outcome.asked;
        differences += outcome.differences.len();
        if differences >= SHOWN {
            println!("stopped at the tenth difference");
            return (called, SHOWN);
        }
    }
    (called, differences)
}
