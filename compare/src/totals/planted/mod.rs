//! The comparison of totals tried on itself: a library with a planted fault has to be found out.
mod carrying;
mod damage;
mod joins;
mod kinds;
mod places;
mod reading;
mod refusals;
pub mod stored;
mod words;
mod zeros;

use super::call::{Call, Reading, Turn};
use super::columns::terms::{MINUS_ZERO, PLUS_ZERO};
use super::columns::{Column, Shape, Source};
use super::compare::{compare, compared};
use super::model::{self, Term, Total, LENGTH, OLD_LENGTH};
use super::subject::{Lent, Library, Subject};
use crate::pattern::is_finite;

#[derive(Clone, Copy, Debug)]
enum Fault {
    Words(words::Fault),
    Refusal(refusals::Fault),
    Reading(reading::Fault),
    Zero(zeros::Fault),
    Join(joins::Fault),
    CarryOver(carrying::Fault),
    Place(places::Fault),
}

/// A call that the library has carried out or refused, to be spoilt.
struct Done<'a> {
    call: Call,
    before: Vec<u32>,
    lent: &'a mut Lent,
    answer: Reading,
}

impl Done<'_> {
    /// The call is an adding one, and took its term.
    fn has_added(&self) -> bool {
        self.call.is_adding() && self.answer == Reading::DONE
    }

    fn has_bad_operand(&self) -> bool {
        !self.call.operands().into_iter().all(is_finite)
    }

    /// What the words held, if they are 22.
    fn total(&self) -> Option<Total> {
        (self.before.len() == LENGTH).then(|| Total::of(&self.before))
    }

    fn refuse(&mut self, refusal: u32) {
        self.lent.words_mut().copy_from_slice(&self.before);
        self.answer = Reading::refused(refusal);
    }

    /// As if no condition had been met.
    fn carry_out(&mut self) {
        let total = Total::of(&self.before);
        match self.call {
            Call::Read => self.answer = total.reading(),
            Call::Clear => self.leave(Total::CLEARED),
            Call::Pattern(_) | Call::Product(..) => self.leave(total.with(&Term::of(self.call))),
        }
    }

    fn leave(&mut self, total: Total) {
        self.lent.words_mut().copy_from_slice(&total.words());
        self.answer = Reading::DONE;
    }
}

/// The library, with one fault.
struct Planted(Fault);

impl Subject for Planted {
    fn answer(&self, call: Call, lent: &mut Lent) -> Reading {
        let before = lent.words().to_vec();
        let answer = Library.answer(call, lent);
        let mut done = Done { call, before, lent, answer };
        match self.0 {
            Fault::Words(fault) => fault.spoil(&mut done),
            Fault::Refusal(fault) => fault.spoil(&mut done),
            Fault::Reading(fault) => fault.spoil(&mut done),
            Fault::Zero(fault) => fault.spoil(&mut done),
            Fault::Place(fault) => fault.spoil(&mut done),
            Fault::Join(_) | Fault::CarryOver(_) => {}
        }
        done.answer
    }

    fn join(&self, first: &mut Lent, second: &mut Lent) -> u32 {
        match self.0 {
            Fault::Join(fault) => fault.join(first, second),
            _ => Library.join(first, second),
        }
    }

    fn carry_over(&self, old: &mut Lent, new: &mut Lent) -> u32 {
        match self.0 {
            Fault::CarryOver(fault) => fault.carry_over(old, new),
            _ => Library.carry_over(old, new),
        }
    }
}

/// Each fault with the shape that is there to find it, and what a report calls it.
fn faults() -> Vec<(Fault, Shape, &'static str)> {
    let words = words::faults().into_iter().map(|(fault, shape, name)| (Fault::Words(fault), shape, name));
    let refusals = refusals::FAULTS.map(|(fault, shape, name)| (Fault::Refusal(fault), shape, name));
    let reading = reading::FAULTS.into_iter().chain(reading::OF_ZEROS);
    let reading = reading.map(|(fault, shape, name)| (Fault::Reading(fault), shape, name));
    let zeros = zeros::faults().into_iter().map(|(fault, shape, name)| (Fault::Zero(fault), shape, name));
    let joins = joins::faults().into_iter().map(|(fault, shape, name)| (Fault::Join(fault), shape, name));
    let carried = carrying::faults().into_iter();
    let carried = carried.map(|(fault, shape, name)| (Fault::CarryOver(fault), shape, name));
    words.chain(refusals).chain(reading).chain(zeros).chain(joins).chain(carried).collect()
}

const COLUMNS: u64 = 400;

/// Runs the comparison on each fault, by its shape. Says which it found, or the first that it missed.
pub fn tried(seed: u64) -> Result<String, String> {
    let mut found = Vec::new();
    for (fault, shape, name) in faults() {
        let source = Source { shape, seed, columns: COLUMNS };
        if compare(&Planted(fault), &source).differences.is_empty() {
            return Err(format!("total {} ({name}: {fault:?})", shape.name()));
        }
        found.push(format!("{name} ({})", shape.name()));
    }
    if !finds_unlike(seed) {
        return Err("totals that are to be alike, one of them with a term more".to_string());
    }
    found.push("a term more in one of the totals that are to be alike (trees)".to_string());
    if !tells_carried(MINUS_ZERO) || tells_carried(PLUS_ZERO) {
        return Err("totals that are to be alike, one of them of -0 carried over".to_string());
    }
    found.push("-0 carried over, and taken for -0 still".to_string());
    // Those for each of the words have one name.
    found.dedup();
    Ok(found.join(", "))
}

/// The model has that term too: only the other totals of the tree tell that it is one too many.
fn finds_unlike(seed: u64) -> bool {
    let source = Source { shape: Shape::Trees, seed, columns: 1 };
    let mut columns = source.columns(source.chunks() - 1);
    columns.iter_mut().all(|column| {
        let last = *column.alike.last().expect("trees end alike");
        column.turns.push(Turn::On(last, Call::Pattern(0)));
        compared(&Library, column).1.is_some()
    })
}

/// The model in the library's place.
struct Model;

impl Subject for Model {
    fn answer(&self, call: Call, lent: &mut Lent) -> Reading {
        model::answer(call, lent.words_mut())
    }

    fn join(&self, first: &mut Lent, second: &mut Lent) -> u32 {
        model::join(first.words_mut(), second.words())
    }

    fn carry_over(&self, old: &mut Lent, new: &mut Lent) -> u32 {
        model::carry_over(old.words(), new.words_mut())
    }
}

/// Whether a -0 that is carried over ends unlike this term. Every call is as the model has it: only the two totals tell.
fn tells_carried(term: Call) -> bool {
    let (made, old, new, other) = (0, 1, 2, 3);
    let turns = vec![
        Turn::On(made, MINUS_ZERO),
        Turn::AsOld(made, old),
        Turn::CarryOver(old, new),
        Turn::On(other, term),
    ];
    let totals = [LENGTH, OLD_LENGTH, LENGTH, LENGTH].map(|length| vec![0; length]).into();
    compared(&Model, &Column { totals, turns, alike: vec![new, other] }).1.is_some()
}
