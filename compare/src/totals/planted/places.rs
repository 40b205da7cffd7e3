//! Faults in where a term goes: its shift, its words, its sign, and how far its carry runs. Most are at one place or word alone.
use super::words::{moved, Fault as Lost};
use super::Done;
use crate::pattern::exponent_field;
use crate::totals::call::Call;
use crate::totals::model::{Term, Total, LAST, LENGTH};
use crate::totals::number::{Number, WORDS};

#[derive(Clone, Copy, Debug)]
pub enum Fault {
    /// A term that starts at this place goes one place higher.
    Shifted(Kind, u32),
    /// A term that starts in this word goes to the next one.
    NextWord(usize),
    /// It goes to the one before.
    WordBefore(usize),
    /// A negative term is added as if it were positive.
    SignIgnored(Kind),
    /// The carry of a term that starts in the first of these words stops before the second.
    CarryStops(usize, usize),
    /// Its borrow does.
    BorrowStops(usize, usize),
    /// The carry of a term that starts in this word goes one word too far.
    CarryRuns(usize),
    /// Its borrow does.
    BorrowRuns(usize),
    /// What is carried out of the number's last word goes into the count.
    CarryCounts,
    /// What is borrowed from beyond that word does.
    BorrowCounts,
    /// The word behind the total is written by a term.
    Beyond,
}

#[derive(Clone, Copy, PartialEq, Eq, Debug)]
pub enum Kind {
    Pattern,
    Product,
}

/// The highest places that terms start at, and the word of the last of them.
const HIGHEST_PATTERN: u32 = LAST + 253;
const HIGHEST_PRODUCT: u32 = 506;
const LAST_START: usize = HIGHEST_PRODUCT as usize / 32;

pub fn faults() -> Vec<(Fault, &'static str)> {
    let shifted = |kind| move |place| Fault::Shifted(kind, place);
    let patterns = (LAST..=HIGHEST_PATTERN).map(shifted(Kind::Pattern));
    let products = (0..=HIGHEST_PRODUCT).map(shifted(Kind::Product));
    let next = (0..=LAST_START).map(Fault::NextWord);
    let before = (1..=LAST_START).map(Fault::WordBefore);
    let runs = || (0..=LAST_START).flat_map(|start| (start + 1..WORDS).map(move |word| (start, word)));
    let carries = runs().map(|(start, word)| Fault::CarryStops(start, word));
    let borrows = runs().map(|(start, word)| Fault::BorrowStops(start, word));
    // One from the last start that leaves the term's own words passes through zero, and has no word to go too far to.
    let too_far = (0..LAST_START).map(Fault::CarryRuns).chain((0..LAST_START).map(Fault::BorrowRuns));
    let others = [
        Fault::SignIgnored(Kind::Pattern),
        Fault::SignIgnored(Kind::Product),
        Fault::CarryCounts,
        Fault::BorrowCounts,
        Fault::Beyond,
    ];
    let all = patterns.chain(products).chain(next).chain(before).chain(carries).chain(borrows);
    all.chain(too_far).chain(others).map(|fault| (fault, fault.name())).collect()
}

impl Fault {
    fn name(self) -> &'static str {
        match self {
            Fault::Shifted(Kind::Pattern, _) => "a pattern's shift off by one, at each place",
            Fault::Shifted(Kind::Product, _) => "a product's shift off by one, at each place",
            Fault::NextWord(_) => "the next word to start in, for each word",
            Fault::WordBefore(_) => "the word before, for each word",
            Fault::CarryStops(..) => "a carry from each word to start in that stops before each word above",
            Fault::BorrowStops(..) => "a borrow likewise",
            Fault::CarryRuns(_) => "a carry from each word to start in that goes a word too far",
            Fault::BorrowRuns(_) => "a borrow likewise",
            Fault::SignIgnored(Kind::Pattern) => "a pattern's sign ignored",
            Fault::SignIgnored(Kind::Product) => "a product's sign ignored",
            Fault::CarryCounts => "a carry that goes on into the count",
            Fault::BorrowCounts => "a borrow that does",
            Fault::Beyond => "the word behind the total written",
        }
    }

    pub fn spoil(self, done: &mut Done) {
        if !done.has_added() {
            return;
        }
        let (start, is) = (start(done.call), |kind| kind == self::kind(done.call));
        let term = Term::of(done.call).number;
        match self {
            Fault::Shifted(kind, place) if is(kind) && start == place => added(&term.plus(&term), done),
            Fault::NextWord(word) if in_word(start) == word => added(&moved_up(&term), done),
            Fault::WordBefore(word) if in_word(start) == word => added(&moved_down(&term), done),
            Fault::SignIgnored(kind) if is(kind) => added(&term.magnitude(), done),
            Fault::CarryStops(from, word) if in_word(start) == from => Lost::CarryLost(word).spoil(done),
            Fault::BorrowStops(from, word) if in_word(start) == from => Lost::BorrowLost(word).spoil(done),
            Fault::CarryRuns(from) if in_word(start) == from && !term.is_negative() => run_on(1, done),
            Fault::BorrowRuns(from) if in_word(start) == from && term.is_negative() => run_on(u32::MAX, done),
            _ => self.spoil_beyond(done),
        }
    }

    /// What leaves the number's words: a total that passes zero upwards carries a 1 out of them, one that passes it
    /// downwards borrows one.
    fn spoil_beyond(self, done: &mut Done) {
        let negative = |words: &[u32]| Total::of(words).number.is_negative();
        let (was, is) = (negative(&done.before), negative(done.lent.words()));
        let words = done.lent.words_and_next();
        match self {
            Fault::CarryCounts if was && !is => words[WORDS] += 1,
            Fault::BorrowCounts if !was && is => words[WORDS] -= 1,
            Fault::Beyond => words[LENGTH] ^= 1,
            _ => {}
        }
    }
}

/// Moves what is above the last word that a term changed by 1, or by -1 as all ones are. If that word is above the term's
/// own three, a carry or a borrow ended there.
fn run_on(by: u32, done: &mut Done) {
    let first_above = in_word(start(done.call)) + 3;
    let after = done.lent.words_mut();
    let last = (0..WORDS).rfind(|&i| after[i] != done.before[i]);
    if let Some(last) = last.filter(|&last| last >= first_above) {
        moved(&mut after[last + 1..WORDS], by);
    }
}

/// The total with another number added than it was given.
fn added(number: &Number, done: &mut Done) {
    let total = Total::of(&done.before);
    done.leave(total.with(&Term { number: *number, ..Term::of(done.call) }));
}

fn kind(call: Call) -> Kind {
    match call {
        Call::Product(..) => Kind::Product,
        _ => Kind::Pattern,
    }
}

/// The place that the lowest bit of a term's significand has, whether it is set or not.
fn start(call: Call) -> u32 {
    let raised: i32 = call.operands().into_iter().map(|x| exponent_field(x).max(1) - 1).sum();
    raised as u32 + if kind(call) == Kind::Pattern { LAST } else { 0 }
}

fn in_word(place: u32) -> usize {
    place as usize / 32
}

/// Every word of a term's magnitude one place up. The last is 0.
fn moved_up(term: &Number) -> Number {
    rotated(term, |words| words.rotate_right(1))
}

/// One place down, for a term that does not start in the first.
fn moved_down(term: &Number) -> Number {
    rotated(term, |words| words.rotate_left(1))
}

fn rotated(term: &Number, rotate: impl Fn(&mut [u32; WORDS])) -> Number {
    let mut words = term.magnitude().words();
    rotate(&mut words);
    let moved = Number::of_words(&words);
    if term.is_negative() {
        moved.opposite()
    } else {
        moved
    }
}
