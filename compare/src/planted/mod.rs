//! The comparison tried on itself: a library with a planted fault has to be found out.
pub mod marks;

mod nan;
mod rounding;

use crate::processor::Processor;
use crate::questions::{Shape, Source};
use crate::step::{Answer, Question, Step};
use crate::steps::{compare, Difference};
use crate::subject::{Library, Subject};

/// A fault in the result has the right one to change, a fault in the mark the whole right answer to go by.
#[derive(Clone, Copy)]
enum Fault {
    Result(fn(Step, Question, u32) -> u32),
    Mark(marks::Fault),
}

/// A fault in the result, the steps that can have it, the shape of questions that is there to find it, and what a report calls it.
type Row = (fn(Step, Question, u32) -> u32, &'static [Step], Shape, &'static str);

/// The library, with one fault.
struct Planted(Fault);

impl Subject for Planted {
    fn answer(&self, step: Step, q: Question) -> Answer {
        let right = Library.answer(step, q);
        match self.0 {
            Fault::Result(fault) => Answer { result: fault(step, q, right.result), ..right },
            Fault::Mark(fault) => Answer { mark: fault(step, q, right), ..right },
        }
    }
}

const COUNT: u64 = 200_000;

/// Runs the comparison on each fault, by the edges and by the fault's shape. Says which it found, or
/// the first that it did not.
pub fn tried(processor: Processor, edges: &[u32], seed: u64) -> Result<String, String> {
    let trial = Trial { processor, edges, seed };
    let mut found = Vec::new();
    for &(fault, steps, shape, name) in rounding::FAULTS.iter().chain(&nan::FAULTS) {
        found.push(trial.tried(Fault::Result(fault), steps, shape, name, |_, _| true)?);
    }
    for &(fault, steps, shape, name) in &marks::OF_FINITE {
        // By the flag alone, too, wherever there is one.
        let flagged = |step, d: &Difference| d.by_flag() || step == Step::Fma && !processor.fused_instruction;
        let both = |step, d: &Difference| d.by_model() && flagged(step, d);
        found.push(trial.tried(Fault::Mark(fault), steps, shape, name, both)?);
    }
    for &(fault, steps, shape, name) in &marks::OF_OTHERS {
        found.push(trial.tried(Fault::Mark(fault), steps, shape, name, |_, d| d.by_model())?);
    }
    Ok(found.join(", "))
}

struct Trial<'a> {
    processor: Processor,
    edges: &'a [u32],
    seed: u64,
}

impl Trial<'_> {
    /// A fault that is found in each of its steps, in each way.
    fn tried(
        &self,
        fault: Fault,
        steps: &[Step],
        shape: Shape,
        name: &str,
        is_found: impl Fn(Step, &Difference) -> bool,
    ) -> Result<String, String> {
        let ways = [Source::Edges(self.edges), Source::Random { seed: self.seed, shape, count: COUNT }];
        for source in ways {
            let missed = |&&step: &&Step| {
                let outcome = compare(&Planted(fault), self.processor, step, &source).outcome;
                !outcome.differences.iter().any(|difference| is_found(step, difference))
            };
            if let Some(step) = steps.iter().find(missed) {
                return Err(format!("{} {} ({name})", step.name(), source.name()));
            }
        }
        Ok(format!("{name} ({})", shape.name()))
    }
}
