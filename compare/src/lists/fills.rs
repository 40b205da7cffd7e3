//! Compares filling with the model: the answer, every lent word, and those around them.
use super::events::{asked, enough, question, too_few, LENT};
use super::model::{self, Filled, WORDS};
use super::subject::{Question, Subject};
use crate::pairs::pair::OPERATIONS;
use crate::random::Random;
use crate::totals::subject::Lent;
use crate::workers::{self, Outcome};

#[derive(Clone, Copy, PartialEq, Eq, Debug)]
pub enum Shape {
    /// Questions of one operation, of all the pairs' shapes, with 78 words or a few more.
    Good(u32),
    /// Operation numbers and lengths of every sort.
    Refused,
}

pub const SHAPES: [Shape; 4] = [Shape::Good(1), Shape::Good(2), Shape::Good(3), Shape::Refused];

impl Shape {
    pub fn name(self) -> &'static str {
        match self {
            Shape::Good(number) => OPERATIONS[number as usize - 1].name(),
            Shape::Refused => "refused",
        }
    }

    fn question(self, r: &mut Random) -> Question {
        match self {
            Shape::Good(operation) => {
                let (x, y) = asked(OPERATIONS[operation as usize - 1], r);
                let lent = if r.once_in(4) { enough(r) } else { WORDS as u32 };
                Question { operation, x, y, lent }
            }
            Shape::Refused => {
                let operations = [0, 1, 2, 3, 4, 5, 0x8000_0001, 0x0100_0001, u32::MAX];
                let operation = operations[r.within(0, operations.len() as i32 - 1) as usize];
                let lent = match r.within(0, 7) {
                    0 => r.within(LENT as i32, 700) as u32,
                    1 => too_few(r),
                    _ => r.within(0, LENT as i32) as u32,
                };
                question(operation, lent, r)
            }
        }
    }
}

pub struct Difference {
    question: Question,
    subject: Filled,
    model: Filled,
    what: String,
}

const CHUNK: u64 = 2048;

/// Fills so many sheets of a shape, and stops early at the tenth difference.
pub fn compare<S: Subject>(subject: &S, shape: Shape, seed: u64, count: u64) -> Outcome<Difference> {
    workers::share(count.div_ceil(CHUNK), |chunk| {
        let place = SHAPES.iter().position(|&s| s == shape).expect("listed") as u64;
        let mut r = Random::stream(seed, &[620, place, chunk]);
        let asked = CHUNK.min(count - chunk * CHUNK);
        let differences = (0..asked).filter_map(|_| difference(subject, shape.question(&mut r))).collect();
        (asked as usize, differences)
    })
}

/// What the words are before a call: no two alike, and none that a sheet is likely to have.
pub fn before(length: u32) -> Vec<u32> {
    (0..length).map(|i| 0xD1B5_4A33 ^ i.wrapping_mul(0x0101_0101)).collect()
}

pub fn difference<S: Subject>(subject: &S, q: Question) -> Option<Difference> {
    let mut right = before(q.lent);
    let mut lent = Lent::new(&right);
    let given = subject.fill(q.operation, q.x, q.y, &mut lent);
    let model = model::fill(q.operation, q.x, q.y, &mut right);
    let what = wrong_words(&lent, &right);
    (given != model || what.is_some()).then(|| Difference {
        question: q,
        subject: given,
        model,
        what: what.unwrap_or_default(),
    })
}

/// The first word that is not the model's.
pub fn wrong_words(lent: &Lent, right: &[u32]) -> Option<String> {
    let wrong = lent.words().iter().zip(right).position(|(given, model)| given != model);
    match wrong {
        Some(i) => Some(format!(", word {i} {:08X}, not {:08X}", lent.words()[i], right[i])),
        None if !lent.is_guarded() => Some(", and a word beside the lent ones is written".to_string()),
        None => None,
    }
}

pub fn report(shape: Shape, seed: u64, outcome: &Outcome<Difference>, room: usize) {
    println!(
        "fill      {:<10}  {:>9} sheets     {}",
        shape.name(),
        outcome.asked,
        if outcome.differences.is_empty() { "no difference" } else { "DIFFERENT" }
    );
    for d in outcome.differences.iter().take(room) {
        let (subject, model) = (d.subject.shown(), d.model.shown());
        println!("    seed {seed}: {}: library {subject}, model {model}{}", d.question.shown(), d.what);
    }
}
