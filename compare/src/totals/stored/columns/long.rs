//! The same term over and over.
use super::{DOWN, MINUS_OMEGA, MINUS_SQUARE, OMEGA, SQUARE, UP};
use crate::pattern::INFINITY;
use crate::totals::call::Call;
use crate::totals::model::{Total, MOST};
use crate::totals::stored::record::Column;
use crate::totals::stored::text;

pub fn columns() -> Vec<Column> {
    let full = [SQUARE, MINUS_SQUARE, UP].map(full);
    TERMS.map(like).into_iter().chain(full).collect()
}

const TERMS: [Call; 12] = [
    OMEGA,
    MINUS_OMEGA,
    SQUARE,
    MINUS_SQUARE,
    UP,
    DOWN,
    Call::Pattern(0x3F80_0001),
    Call::Pattern(0xBFFF_FFFF),
    Call::Pattern(0x807F_FFFF),
    Call::Product(0x3FFF_FFFF, 0x3EFF_FFFF),
    Call::Product(0xC07F_FFFF, 0x2B7F_FFFF),
    Call::Pattern(0x8000_0000),
];

/// 300 of them, with every fiftieth state.
fn like(term: Call) -> Column {
    repeated(format!("300 terms, each of them {}", text::call(term)), &[(term, 50); 6])
}

/// As many as a total takes, and what is refused after them.
fn full(term: Call) -> Column {
    let infinity = Call::Pattern(INFINITY);
    let calls = [
        (term, 1),
        (term, 255),
        (term, MOST / 2 - 256),
        (infinity, 1),
        (term, MOST / 2 - 1),
        (term, 1),
        (term, 1),
        (infinity, 1),
        (Call::Clear, 1),
        (term, 1),
    ];
    repeated(
        format!("65,536 terms, each of them {}, then one more, and 7 before 8", text::call(term)),
        &calls,
    )
}

fn repeated(shows: String, calls: &[(Call, u32)]) -> Column {
    Column { shows, start: Total::CLEARED.old_words(), apart: false, calls: calls.to_vec() }
}
