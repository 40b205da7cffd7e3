//! Compares a subject's totals with the model's, after every call.
use super::call::{Reading, Turn};
use super::columns::{Column, Source};
use super::model::{self, OLD_LENGTH};
use super::subject::{Lent, Subject};
use crate::workers::{self, Outcome};

/// A call whose answer or words are not the model's. The words before it and the call repeat it.
pub struct Difference {
    column: String,
    call: String,
    subject: Reading,
    model: Reading,
    /// What became of each total that the call was made on.
    totals: Vec<Left>,
}

struct Left {
    before: Vec<u32>,
    subject: Vec<u32>,
    model: Vec<u32>,
    /// A word was written that was not lent.
    beyond: bool,
}

/// Makes every call of a source, and stops early at the tenth difference.
pub fn compare<S: Subject>(subject: &S, source: &Source) -> Outcome<Difference> {
    workers::share(source.chunks(), |chunk| {
        let (mut called, mut differences) = (0, Vec::new());
        for (i, column) in source.columns(chunk).iter().enumerate() {
            let (calls, difference) = compared(subject, column);
            called += calls;
            differences.extend(difference.map(|d| Difference { column: format!("{chunk}.{i}"), ..d }));
        }
        (called, differences)
    })
}

/// Up to the first difference of a column: what comes after it would follow from it.
pub fn compared<S: Subject>(subject: &S, column: &Column) -> (usize, Option<Difference>) {
    let mut trial = Trial::of(column);
    for (i, &turn) in column.turns.iter().enumerate() {
        let difference = trial.make(subject, turn);
        if difference.is_some() {
            return (i + 1, difference);
        }
    }
    (column.turns.len(), trial.unlike(&column.alike))
}

/// A column's totals, as the subject and as the model have them.
struct Trial {
    lent: Vec<Lent>,
    words: Vec<Vec<u32>>,
    /// What the totals of the last call held before it.
    before: [Vec<u32>; 2],
}

impl Trial {
    fn of(column: &Column) -> Trial {
        Trial {
            lent: column.totals.iter().map(|words| Lent::new(words)).collect(),
            words: column.totals.clone(),
            before: [Vec::new(), Vec::new()],
        }
    }

    fn make<S: Subject>(&mut self, subject: &S, turn: Turn) -> Option<Difference> {
        match turn {
            Turn::On(place, call) => {
                self.keep(&[place]);
                let given = subject.answer(call, &mut self.lent[place]);
                let right = model::answer(call, &mut self.words[place]);
                self.difference(turn, &[place], given, right)
            }
            Turn::Join(first, second) => {
                let join = |one: &mut Lent, other: &mut Lent| subject.join(one, other);
                self.make_on_two(turn, [first, second], join, |one, other| model::join(one, other))
            }
            Turn::CarryOver(old, new) => {
                let carry_over = |old: &mut Lent, new: &mut Lent| subject.carry_over(old, new);
                self.make_on_two(turn, [old, new], carry_over, |old, new| model::carry_over(old, new))
            }
            Turn::AsOld(from, to) => {
                self.lent[to] = Lent::new(&self.lent[from].words()[..OLD_LENGTH]);
                self.words[to] = self.words[from][..OLD_LENGTH].to_vec();
                None
            }
        }
    }

    fn make_on_two(
        &mut self,
        turn: Turn,
        places: [usize; 2],
        subject: impl Fn(&mut Lent, &mut Lent) -> u32,
        model: impl Fn(&mut [u32], &mut [u32]) -> u32,
    ) -> Option<Difference> {
        self.keep(&places);
        let [one, other] = self.lent.get_disjoint_mut(places).expect("two totals of the column");
        let given = subject(one, other);
        let [one, other] = self.words.get_disjoint_mut(places).expect("two totals of the column");
        let right = model(one, other);
        self.difference(turn, &places, Reading::refused(given), Reading::refused(right))
    }

    fn keep(&mut self, places: &[usize]) {
        for (before, &place) in self.before.iter_mut().zip(places) {
            before.clone_from(&self.words[place]);
        }
    }

    fn difference(&self, turn: Turn, places: &[usize], given: Reading, right: Reading) -> Option<Difference> {
        let differs = |&place: &usize| {
            let lent = &self.lent[place];
            lent.words() != self.words[place] || !lent.is_guarded()
        };
        if given == right && !places.iter().any(differs) {
            return None;
        }
        let left = |(&place, before): (&usize, &Vec<u32>)| Left {
            before: before.clone(),
            subject: self.lent[place].words().to_vec(),
            model: self.words[place].clone(),
            beyond: !self.lent[place].is_guarded(),
        };
        let totals = places.iter().zip(&self.before).map(left).collect();
        Some(Difference { column: String::new(), call: turn.shown(), subject: given, model: right, totals })
    }

    /// Totals that should hold the same words in the end, and as the subject has them do not.
    fn unlike(&self, alike: &[usize]) -> Option<Difference> {
        let (&first, others) = alike.split_first()?;
        let words = self.lent[first].words();
        let other = others.iter().map(|&place| self.lent[place].words()).find(|&other| other != words)?;
        let left =
            Left { before: words.to_vec(), subject: other.to_vec(), model: words.to_vec(), beyond: false };
        let call = "another total of the same terms".to_string();
        let totals = vec![left];
        Some(Difference { column: String::new(), call, subject: Reading::DONE, model: Reading::DONE, totals })
    }
}

/// The line of the report, and under it the first differences, `room` of them at most.
pub fn report(source: &Source, outcome: &Outcome<Difference>, room: usize) {
    let name = source.shape.name();
    println!(
        "total     {name:<10}  {:>9} calls      {}",
        outcome.asked,
        if outcome.differences.is_empty() { "no difference" } else { "DIFFERENT" }
    );
    for d in outcome.differences.iter().take(room) {
        let before: Vec<String> = d.totals.iter().map(|total| shown(&total.before)).collect();
        println!("    seed {}, column {}: {}, on {}", source.seed, d.column, d.call, before.join(", and "));
        let wrong: Vec<String> = d.totals.iter().zip(["", " of the second"]).map(wrong_words).collect();
        println!("        library {}, model {}{}", d.subject.shown(), d.model.shown(), wrong.concat());
    }
}

/// Words or differences of words that are printed: the longest columns have more than anyone reads.
const PRINTED: usize = 64;

fn shown(words: &[u32]) -> String {
    let first: Vec<String> = words.iter().take(PRINTED).map(|word| format!("{word:08X}")).collect();
    format!("{} words: {}", words.len(), first.join(" "))
}

/// The words that the call left otherwise than the model's.
fn wrong_words((total, which): (&Left, &str)) -> String {
    let pairs = total.subject.iter().zip(&total.model).enumerate();
    let mut wrong: Vec<String> = pairs
        .filter(|(_, (subject, model))| subject != model)
        .map(|(i, (subject, model))| format!(", word {i}{which} {subject:08X}, not {model:08X}"))
        .take(PRINTED)
        .collect();
    if total.beyond {
        wrong.push(format!(", and a word beside the lent ones{which} is written"));
    }
    wrong.concat()
}
