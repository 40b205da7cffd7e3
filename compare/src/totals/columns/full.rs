//! Columns of 65,536 terms, and one more.
use super::terms::{self, Window};
use super::Column;
use crate::pattern::{INFINITY, LARGEST, NAN, SIGN};
use crate::random::Random;
use crate::totals::call::Call;
use crate::totals::model::MOST;

/// What the terms of a long random column are.
#[derive(Clone, Copy)]
pub enum Flavour {
    Patterns(Window),
    Products(Window),
    Either(Window),
}

pub const FLAVOURS: [Flavour; 8] = [
    Flavour::Patterns(terms::ANY),
    Flavour::Products(terms::ANY),
    Flavour::Either(terms::ANY),
    Flavour::Patterns(terms::NEAR),
    Flavour::Products(terms::NEAR),
    Flavour::Patterns(terms::LOWEST),
    Flavour::Products(terms::LOWEST),
    Flavour::Either(terms::HIGHEST),
];

impl Flavour {
    fn term(self, r: &mut Random) -> Call {
        match self {
            Flavour::Patterns(window) => terms::pattern(r, window),
            Flavour::Products(window) => terms::product(r, window),
            Flavour::Either(window) => terms::term(r, window),
        }
    }
}

/// Random terms, with readings and refused calls between them.
pub fn long(flavour: Flavour, r: &mut Random) -> Column {
    let mut calls = Vec::new();
    for _ in 0..MOST {
        calls.push(flavour.term(r));
        if r.once_in(8) {
            calls.push(Call::Read);
        }
        if r.once_in(64) {
            calls.push(terms::refused(r));
        }
    }
    calls.extend(ending(flavour.term(r)));
    Column::cleared(calls)
}

const OMEGA: Call = Call::Pattern(LARGEST);
const MINUS_OMEGA: Call = Call::Pattern(SIGN | LARGEST);
const SQUARE: Call = Call::Product(LARGEST, LARGEST);
const MINUS_SQUARE: Call = Call::Product(LARGEST, SIGN | LARGEST);

/// The terms that a column of the largest ones takes in turn.
pub const REPEATED: [&[Call]; 12] = [
    &[OMEGA],
    &[MINUS_OMEGA],
    &[OMEGA, MINUS_OMEGA],
    &[SQUARE],
    &[MINUS_SQUARE],
    &[Call::Product(SIGN | LARGEST, SIGN | LARGEST)],
    &[SQUARE, MINUS_SQUARE],
    &[MINUS_SQUARE, MINUS_SQUARE, SQUARE],
    &[SQUARE, MINUS_OMEGA],
    &[MINUS_SQUARE, OMEGA, Call::Product(1, 1)],
    // Zeros count.
    &[Call::Pattern(0), Call::Pattern(SIGN), Call::Product(SIGN, LARGEST)],
    &[Call::Pattern(SIGN), Call::Product(SIGN, LARGEST)],
];

pub fn largest(terms: &[Call]) -> Column {
    let mut calls = Vec::new();
    for (i, &term) in (0..MOST).zip(terms.iter().cycle()) {
        calls.push(term);
        if i < 64 || i % 16 == 0 || i + 64 > MOST {
            calls.push(Call::Read);
        }
    }
    calls.extend(ending(terms[0]));
    Column::cleared(calls)
}

/// One term more, which is refused, and so are others; then the total is cleared and takes terms again.
fn ending(term: Call) -> Vec<Call> {
    vec![
        Call::Read,
        term,
        Call::Pattern(0),
        Call::Product(LARGEST, 1),
        Call::Pattern(INFINITY),
        Call::Product(0, NAN),
        Call::Product(SIGN | INFINITY, LARGEST),
        terms::opposite(term),
        Call::Read,
        Call::Clear,
        Call::Read,
        term,
        Call::Read,
    ]
}
