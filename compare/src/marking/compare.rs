//! Compares marking with the model: the answer, and that no word is written.
use super::model::{self, Marked};
use super::subject::Subject;
use super::worksheet::Worksheet;
use super::worksheets::Source;
use crate::totals::subject::Lent;
use crate::workers::{self, Outcome};

/// A worksheet that is not marked as the model marks it, or as it was made to be.
pub struct Difference {
    worksheet: Worksheet,
    /// The chunk, and the place in it.
    place: String,
    subject: Marked,
    model: Marked,
    is_written: bool,
}

/// Has every worksheet of a source marked, and stops early at the tenth difference.
pub fn compare<S: Subject>(subject: &S, source: &Source) -> Outcome<Difference> {
    workers::share(source.chunks(), |chunk| {
        let worksheets = source.worksheets(chunk);
        let asked = worksheets.len();
        let differing = |(i, worksheet)| {
            difference(subject, worksheet).map(|d| Difference { place: format!("{chunk}.{i}"), ..d })
        };
        (asked, worksheets.into_iter().enumerate().filter_map(differing).collect())
    })
}

fn difference<S: Subject>(subject: &S, worksheet: Worksheet) -> Option<Difference> {
    let Worksheet { operation, x, y, ref words, made } = worksheet;
    let mut lent = Lent::new(words);
    let given = subject.mark(operation, x, y, &mut lent);
    let model = model::mark(operation, x, y, words);
    let is_written = lent.words() != words || !lent.is_guarded();
    let is_as_made = made.is_none_or(|made| made == model);
    (given != model || is_written || !is_as_made).then(|| Difference {
        worksheet,
        place: String::new(),
        subject: given,
        model,
        is_written,
    })
}

/// The line of the report, and under it the first differences, `room` of them at most.
pub fn report(source: &Source, outcome: &Outcome<Difference>, room: usize) {
    println!(
        "mark      {:<10}  {:>9} worksheets {}",
        source.shape.name(),
        outcome.asked,
        if outcome.differences.is_empty() { "no difference" } else { "DIFFERENT" }
    );
    for d in outcome.differences.iter().take(room) {
        println!("    seed {}, worksheet {}: {}", source.seed, d.place, d.worksheet.shown());
        let made = d.worksheet.made.map_or(String::new(), |made| format!(", made for {}", made.shown()));
        let written = if d.is_written { ", and a word is written" } else { "" };
        println!("        library {}, model {}{made}{written}", d.subject.shown(), d.model.shown());
    }
}
