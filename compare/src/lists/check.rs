//! Filling and lists compared with the model, shape by shape.
use super::subject::TESTED;
use super::trial::Source;
use super::{events, fills, trial};
use crate::workers::SHOWN;
use std::process::ExitCode;

pub use super::planted::tried;

/// How many sheets were filled, and differences.
pub fn compared_fills(seed: u64, count: u64) -> (u64, usize) {
    let (mut filled, mut differences) = (0, 0);
    for shape in fills::SHAPES {
        let outcome = fills::compare(&TESTED, shape, seed, count.div_ceil(fills::SHAPES.len() as u64));
        fills::report(shape, seed, &outcome, SHOWN - differences);
        filled += outcome.asked;
        differences += outcome.differences.len();
        if differences >= SHOWN {
            println!("stopped at the tenth difference");
            return (filled, SHOWN);
        }
    }
    (filled, differences)
}

/// How many events the lists had, and differences.
pub fn compared_lists(seed: u64, lists: u64) -> (u64, usize) {
    let by_events = events::SHAPES.map(Source::Events);
    let by_calls = events::SHAPES.map(Source::Replayed);
    let (mut events, mut differences) = (0, 0);
    for source in by_events.into_iter().chain(by_calls).chain([Source::RefusedReplays]) {
        let outcome = trial::compare(&TESTED, source, seed, lists);
        trial::report(source, seed, &outcome, SHOWN - differences);
        events += outcome.asked;
        differences += outcome.differences.len();
        if differences >= SHOWN {
            println!("stopped at the tenth difference");
            return (events, SHOWN);
        }
    }
    (events, differences)
}

/// `compare lists`: the comparison tried on itself, then filling, then lists.
pub fn run(seed: u64, fills: u64, lists: u64) -> ExitCode {
    match tried(seed) {
        Ok(found) => println!("planted faults found in filling and in lists: {found}"),
        Err(missed) => {
            println!("the comparison is at fault: it did not find a planted fault: {missed}");
            return ExitCode::FAILURE;
        }
    }
    let differences = compared_fills(seed, fills).1 + compared_lists(seed, lists).1;
    println!("{differences} differences");
    if differences == 0 {
        ExitCode::SUCCESS
    } else {
        ExitCode::FAILURE
    }
}
