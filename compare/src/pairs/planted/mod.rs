//! The comparison of pairs tried on itself: a library with a planted fault has to be found out.
mod flags;
mod nan;
mod numbers;

use super::compare::{compare, Difference};
use super::edges::Edges;
use super::pair::{Operation, Pair, OPERATIONS};
use super::questions::{Shape, Source};
use super::subject::{Library, Subject};
use crate::processor::Processor;

#[derive(Clone, Copy)]
enum Fault {
    Numbers(numbers::Fault),
    Nan(nan::Fault),
    Flags(flags::Fault),
}

impl Fault {
    fn applies(self, operation: Operation) -> bool {
        match self {
            Fault::Numbers(fault) => fault.applies(operation),
            Fault::Nan(fault) => fault.applies(operation),
            Fault::Flags(fault) => fault.applies(operation),
        }
    }

    /// By each of the two references that can see the fault: the algorithms give no flags.
    fn seen(self, differences: &[Difference]) -> bool {
        let by_algorithms = differences.iter().any(Difference::seen_by_algorithms);
        let in_flags_only = matches!(self, Fault::Flags(_));
        differences.iter().any(Difference::seen_by_model) && (by_algorithms || in_flags_only)
    }
}

/// What the library was asked and gave, to be spoilt.
#[derive(Clone, Copy)]
struct Given {
    operation: Operation,
    x: u32,
    y: u32,
    right: Pair,
}

/// The library, with one fault.
struct Planted(Fault);

impl Subject for Planted {
    fn pair(&self, operation: Operation, x: u32, y: u32) -> Pair {
        let given = Given { operation, x, y, right: Library.pair(operation, x, y) };
        match self.0 {
            Fault::Numbers(fault) => fault.spoilt(given),
            Fault::Nan(fault) => fault.spoilt(given),
            Fault::Flags(fault) => fault.spoilt(given),
        }
    }
}

/// Each fault with the shape that is there to find it, and what a report calls it.
fn faults() -> impl Iterator<Item = (Fault, Shape, &'static str)> {
    let numbers = numbers::FAULTS.map(|(fault, shape, name)| (Fault::Numbers(fault), shape, name));
    let nan = nan::FAULTS.map(|(fault, shape, name)| (Fault::Nan(fault), shape, name));
    let flags = flags::FAULTS.map(|(fault, shape, name)| (Fault::Flags(fault), shape, name));
    numbers.into_iter().chain(nan).chain(flags)
}

const COUNT: u64 = 200_000;

/// Runs the comparison on each fault, by the edges and by the fault's shape. Says which it found, or the
/// first that it did not.
pub fn tried(processor: Processor, edges: &Edges, seed: u64) -> Result<String, String> {
    let mut found = Vec::new();
    for (fault, shape, name) in faults() {
        let tried = |source: Source| {
            let missed = |operation: &Operation| {
                !fault.seen(&compare(&Planted(fault), processor, *operation, &source).differences)
            };
            let mut operations = OPERATIONS.into_iter().filter(|&operation| fault.applies(operation));
            operations.find(missed).map_or(Ok(()), |operation| {
                Err(format!("pair {} {} ({name})", operation.name(), source.name()))
            })
        };
        tried(Source::Edges(edges))?;
        tried(Source::Random { seed, shape, count: COUNT })?;
        found.push(format!("{name} ({})", shape.name()));
    }
    Ok(found.join(", "))
}
