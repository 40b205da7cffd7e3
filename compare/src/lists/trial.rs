//! Runs whole lists, event by event and by one replay, and holds both totals to the claim.
use super::book::Book;
use super::events::{Event, Shape};
use super::fills;
use super::replays::{self, Replay};
use super::subject::{Question, Subject};
use crate::pattern::is_finite;
use crate::random::Random;
use crate::totals::call::{Call, Reading};
use crate::totals::model::{LENGTH, MOST};
use crate::totals::number::WORDS;
use crate::totals::subject::{Lent, Library, Subject as _};
use crate::workers::{self, Outcome};

/// Where the lists come from.
#[derive(Clone, Copy, PartialEq, Eq, Debug)]
pub enum Source {
    /// Events one after the other.
    Events(Shape),
    /// The questions of the same lists by one call.
    Replayed(Shape),
    /// Replays that are refused, most of them.
    RefusedReplays,
}

impl Source {
    pub fn name(self) -> String {
        match self {
            Source::Events(shape) => shape.name().to_string(),
            Source::Replayed(shape) => format!("{}, one call", shape.name()),
            Source::RefusedReplays => "refused calls".to_string(),
        }
    }

    fn lists(self, random: u64) -> u64 {
        match self {
            Source::Events(shape) | Source::Replayed(shape) => shape.lists(random),
            Source::RefusedReplays => random,
        }
    }
}

pub struct Difference {
    list: u64,
    what: String,
}

/// Runs every list of a source, and stops early at the tenth difference. Events are counted, or questions.
pub fn compare<S: Subject>(subject: &S, source: Source, seed: u64, lists: u64) -> Outcome<Difference> {
    workers::share(source.lists(lists), |number| {
        let (count, what) = match source {
            Source::Events(shape) => {
                let events = shape.list(seed, number);
                (events.len(), by_events(subject, &events))
            }
            Source::Replayed(shape) => {
                let questions = questions(&shape.list(seed, number));
                (questions.len(), replays::difference(subject, Replay::of(&questions)))
            }
            Source::RefusedReplays => {
                let mut r = Random::stream(seed, &[630, number]);
                (1, replays::difference(subject, replays::refused(number, &mut r)))
            }
        };
        (count, what.map(|what| Difference { list: number, what }).into_iter().collect())
    })
}

fn questions(events: &[Event]) -> Vec<Question> {
    let asked = |event: &Event| match *event {
        Event::Ask(question) => Some(question),
        Event::Call(..) => None,
    };
    events.iter().filter_map(asked).collect()
}

/// Up to the first difference.
fn by_events<S: Subject>(subject: &S, events: &[Event]) -> Option<String> {
    let mut totals = [cleared(), cleared()];
    let mut book = Book::EMPTY;
    for (i, &event) in events.iter().enumerate() {
        let what = match event {
            Event::Ask(question) => ask(subject, question, &mut book, &mut totals),
            Event::Call(total, call) => called(call, &book, total, &mut totals[total]),
        };
        if let Some(what) = what {
            return Some(format!("event {i}, {}: {what}", event.shown()));
        }
    }
    claimed(&book, &mut totals)
}

/// The library's own clearing, of words that are not zeros.
fn cleared() -> Lent {
    let mut total = Lent::new(&fills::before(LENGTH as u32));
    Library.answer(Call::Clear, &mut total);
    total
}

/// Fills the question's own words, and gives both totals their terms if it enters.
fn ask<S: Subject>(subject: &S, q: Question, book: &mut Book, totals: &mut [Lent; 2]) -> Option<String> {
    let mut lent = Lent::new(&fills::before(q.lent));
    let sheet = subject.fill(q.operation, q.x, q.y, &mut lent);
    book.note(q);
    let refusal = subject.give(q, &sheet, totals);
    (refusal != 0).then(|| format!("a term is refused: {refusal}"))
}

/// A reading reads S; an adding call that the rules refuse is refused. Any other adding call is no part of a list.
fn called(call: Call, book: &Book, place: usize, total: &mut Lent) -> Option<String> {
    let held = if place == 0 { book.first() } else { book.second() };
    let full = held[WORDS] == MOST;
    let right = match call {
        Call::Read => book.reading(),
        _ if !call.operands().into_iter().all(is_finite) => Reading::refused(7),
        _ if full => Reading::refused(8),
        _ => return None,
    };
    let given = Library.answer(call, total);
    if given != right {
        return Some(format!("library {}, model {}", given.shown(), right.shown()));
    }
    None
}

/// After the list: the words of both totals, and what they read.
fn claimed(book: &Book, totals: &mut [Lent; 2]) -> Option<String> {
    let right = [book.first(), book.second()];
    totals.iter_mut().zip(right).zip(["first", "second"]).find_map(|((total, right), name)| {
        let read = Library.answer(Call::Read, total);
        let wrong =
            fills::wrong_words(total, &right).map(|what| format!("after the list, {name} total{what}"));
        wrong.or_else(|| {
            (read != book.reading())
                .then(|| format!("after the list, the {name} total reads {}", read.shown()))
        })
    })
}

pub fn report(source: Source, seed: u64, outcome: &Outcome<Difference>, room: usize) {
    println!(
        "list      {:<21}{:>9} events     {}",
        source.name(),
        outcome.asked,
        if outcome.differences.is_empty() { "no difference" } else { "DIFFERENT" }
    );
    for d in outcome.differences.iter().take(room) {
        println!("    seed {seed}, list {}: {}", d.list, d.what);
    }
}
