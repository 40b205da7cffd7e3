//! Marking compared with the model, shape by shape.
use super::compare;
use super::subject::Library;
use super::worksheets::{Source, SHAPES};
use super::{cases, planted};
use crate::workers::SHOWN;
use std::process::ExitCode;
use std::time::Instant;

pub use planted::tried;

pub fn distrusted() -> Option<String> {
    cases::distrusted().map(|what| format!("the reference for marking is at fault: {what}"))
}

/// How many worksheets were marked, and differences.
pub fn compared(seed: u64, markings: u64) -> (u64, usize) {
    let count = markings.div_ceil(SHAPES.len() as u64);
    let (mut marked, mut differences) = (0, 0);
    for shape in SHAPES {
        let source = Source { shape, seed, count };
        let outcome = compare::compare(&Library, &source);
        compare::report(&source, &outcome, SHOWN - differences);
        marked += outcome.asked;
        differences += outcome.differences.len();
        if differences >= SHOWN {
            println!("stopped at the tenth difference");
            return (marked, SHOWN);
        }
    }
    (marked, differences)
}

/// `compare marking`: the comparison tried on itself, then marking.
pub fn run(seed: u64, markings: u64) -> ExitCode {
    if let Some(what) = distrusted() {
        println!("{what}");
        return ExitCode::FAILURE;
    }
    match tried(seed) {
        Ok(found) => println!("planted faults found in marking, by a shape of worksheets: {found}"),
        Err(missed) => {
            println!("the comparison is at fault: it did not find a planted fault: {missed}");
            return ExitCode::FAILURE;
        }
    }
    let start = Instant::now();
    let (marked, differences) = compared(seed, markings);
    println!("{marked} worksheets marked, {differences} differences, {:.1} s", start.elapsed().as_secs_f64());
    if differences == 0 {
        ExitCode::SUCCESS
    } else {
        ExitCode::FAILURE
    }
}
