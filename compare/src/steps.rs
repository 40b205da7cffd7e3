//! Compares each step of a subject with the processor's, and its mark with the model of marks and the processor's flag.
use crate::marks;
use crate::processor::{Processor, Witness};
use crate::questions::Source;
use crate::step::{Answer, Question, Step};
use crate::subject::Subject;
use crate::workers::{self, Outcome};
use std::sync::atomic::{AtomicU64, Ordering};

pub struct Difference {
    pub question: Question,
    pub subject: Answer,
    pub processor: Witness,
    /// The model's mark.
    pub mark: u32,
}

impl Difference {
    fn by_result(&self) -> bool {
        self.subject.result != self.processor.result
    }

    pub fn by_model(&self) -> bool {
        self.subject.mark != self.mark
    }

    pub fn by_flag(&self) -> bool {
        self.processor.mark.is_some_and(|mark| self.subject.mark != mark)
    }

    fn shown(&self, step: Step) -> String {
        let flagged = self.processor.mark.map_or("no flag".to_string(), |mark| format!("flag {mark}"));
        format!(
            "{} {}: library {}, processor {:08X}, marks: model {}, {flagged}",
            step.name(),
            self.question.shown(step),
            self.subject.shown(" "),
            self.processor.result,
            self.mark
        )
    }
}

/// What a comparison came to, and how many marks the flag was a witness of.
pub struct Compared {
    pub outcome: Outcome<Difference>,
    pub flagged: u64,
}

/// Asks one step every question of a source, and stops early at the tenth difference.
pub fn compare<S: Subject>(subject: &S, processor: Processor, step: Step, source: &Source) -> Compared {
    let flagged = AtomicU64::new(0);
    let outcome = workers::share(source.chunks(step), |chunk| {
        let mut questions = Vec::new();
        source.fill(step, chunk, &mut questions);
        let (mut witnessed, mut differences) = (0, Vec::new());
        for &question in &questions {
            let difference = Difference {
                question,
                subject: subject.answer(step, question),
                processor: processor.witness(step, question),
                mark: marks::mark(step, question),
            };
            witnessed += u64::from(difference.processor.mark.is_some());
            if difference.by_result() || difference.by_model() || difference.by_flag() {
                differences.push(difference);
            }
        }
        flagged.fetch_add(witnessed, Ordering::Relaxed);
        (questions.len(), differences)
    });
    Compared { outcome, flagged: flagged.into_inner() }
}

/// The line of the report, and under it the first differences, `room` of them at most.
pub fn report(step: Step, source: &Source, compared: &Compared, seed: u64, room: usize) {
    let Compared { outcome, flagged } = compared;
    println!(
        "{}  {:<10}  {:>9} questions  {flagged:>9} by the flag  {}",
        step.name(),
        source.name(),
        outcome.asked,
        if outcome.differences.is_empty() { "no difference" } else { "DIFFERENT" }
    );
    for difference in outcome.differences.iter().take(room) {
        println!("    seed {seed}: {}", difference.shown(step));
    }
}
