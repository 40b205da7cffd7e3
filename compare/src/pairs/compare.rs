//! Compares the pairs of a subject with the model's and the algorithms'.
use super::pair::{Operation, Pair};
use super::questions::Source;
use super::subject::Subject;
use super::{algorithms, model};
use crate::processor::Processor;
use crate::step::Question;
use crate::workers::{self, Outcome};

/// A pair that is not the model's, or has not the algorithms' numbers.
pub struct Difference {
    question: Question,
    subject: Pair,
    model: Pair,
    algorithms: (u32, u32),
}

impl Difference {
    pub fn seen_by_model(&self) -> bool {
        self.subject != self.model
    }

    /// The algorithms have no flags to see.
    pub fn seen_by_algorithms(&self) -> bool {
        self.subject.patterns() != self.algorithms
    }
}

/// Asks for the pair of every question of a source, and stops early at the tenth difference.
pub fn compare<S: Subject>(
    subject: &S,
    processor: Processor,
    operation: Operation,
    source: &Source,
) -> Outcome<Difference> {
    workers::share(source.chunks(operation), |chunk| {
        let questions = source.questions(operation, chunk);
        let differing = |&question: &Question| {
            let (x, y) = (question.x, question.y);
            let difference = Difference {
                question,
                subject: subject.pair(operation, x, y),
                model: model::pair(operation, x, y),
                algorithms: algorithms::answer(processor, operation, x, y),
            };
            (difference.seen_by_model() || difference.seen_by_algorithms()).then_some(difference)
        };
        (questions.len(), questions.iter().filter_map(differing).collect())
    })
}

/// The line of the report, and under it the first differences, `room` of them at most.
pub fn report(operation: Operation, source: &Source, outcome: &Outcome<Difference>, seed: u64, room: usize) {
    let name = operation.name();
    println!(
        "pair {name}  {:<10}  {:>9} questions  {}",
        source.name(),
        outcome.asked,
        if outcome.differences.is_empty() { "no difference" } else { "DIFFERENT" }
    );
    for d in outcome.differences.iter().take(room) {
        println!(
            "    seed {seed}: {name} {:08X} {:08X}: library {}, model {}, algorithm {:08X} {:08X}",
            d.question.x,
            d.question.y,
            d.subject.shown(" "),
            d.model.shown(" "),
            d.algorithms.0,
            d.algorithms.1
        );
    }
}
