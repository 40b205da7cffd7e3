//! Totals that are read at an edge: at a tie, at overflow, or where nothing is left to see.
use super::{DOWN, MINUS_OMEGA, OMEGA, UP};
use crate::pattern::{exact, SIGN};
use crate::totals::call::Call;
use crate::totals::columns::terms::{opposite, power};
use crate::totals::model::LAST;
use crate::totals::stored::record::Column;

pub fn columns() -> Vec<Column> {
    let both = |shows: &str, calls: Vec<Call>| {
        let opposites = calls.iter().copied().map(opposite).collect();
        [Column::cleared(shows, calls), Column::cleared(format!("{shows}, negative"), opposites)]
    };
    let columns = [
        both("a tie of first, and 2^-298 beside it", first_tie(0x3F80_0001)),
        both("a tie of first below a power of two", first_tie(0x3FFF_FFFF)),
        both("a tie of second, and 2^-298 beside it", second_tie()),
        both("2^128 - 2^103, where reading overflows, and 2^-298 beside it", overflow()),
        both("2^-150, half of the least pattern, and 2^-298 beside it", tiny()),
        both("a zero second of a total with a rest", zero_second()),
    ];
    columns.concat()
}

/// Above what was put there, at it, below it, and at it again.
fn about() -> [Call; 4] {
    [UP, DOWN, DOWN, UP]
}

/// A pattern from 1 up and below 2, and half its unit on either side.
fn first_tie(first: u32) -> Vec<Call> {
    let half = 0x3380_0000;
    let up = [Call::Pattern(first), Call::Pattern(half)].into_iter().chain(about());
    let unit = exact(1, 1, -23).expect("a power of two in range");
    up.chain([Call::Pattern(unit)]).chain(about()).collect()
}

/// 2^20, and a second with half its unit on either side of it.
fn second_tie() -> Vec<Call> {
    let first = Call::Pattern(0x4980_0000);
    // 2^-10 and its unit, which makes it odd; and half of that unit.
    let second = [Call::Pattern(0x3A80_0001), Call::Pattern(0x2E80_0000)];
    let back = [Call::Pattern(SIGN | 0x2F00_0000)];
    std::iter::once(first).chain(second).chain(about()).chain(back).chain(about()).collect()
}

fn overflow() -> Vec<Call> {
    let edge = [OMEGA, Call::Pattern(0x7300_0000)];
    let back = [MINUS_OMEGA, OMEGA, OMEGA, MINUS_OMEGA];
    edge.into_iter().chain(about()).chain(back).collect()
}

fn tiny() -> Vec<Call> {
    let odd = [power(LAST), power(LAST), Call::Pattern(SIGN | 1)];
    std::iter::once(power(LAST - 1)).chain(about()).chain(odd).chain(about()).collect()
}

/// The rest is of either sign and too small to be seen.
fn zero_second() -> Vec<Call> {
    vec![Call::Pattern(0x3F80_0000), UP, DOWN, DOWN, power(140), opposite(power(141))]
}
