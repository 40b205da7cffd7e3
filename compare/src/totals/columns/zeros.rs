//! Columns of zeros, of either sign and as products, in which the last word is what tells them apart.
use super::terms::{self, MINUS_ZERO, PLUS_ZERO};
use super::trees::{self, Form, Part, Tree};
use super::{read_after, shuffled, Column};
use crate::pattern::{INFINITY, LARGEST, SIGN, SMALLEST_NORMAL};
use crate::random::Random;
use crate::totals::call::Call;
use crate::totals::model::{Total, MOST};
use crate::totals::number::Number;

const ONE: u32 = 0x3F80_0000;

/// Zeros as patterns and as products, the least terms, and a call that is refused.
const TERMS: [Call; 14] = [
    MINUS_ZERO,
    PLUS_ZERO,
    Call::Product(0, 0),
    Call::Product(0, SIGN),
    Call::Product(SIGN, 0),
    Call::Product(SIGN, SIGN),
    Call::Product(SIGN, ONE),
    Call::Product(SIGN | LARGEST, 0),
    Call::Product(SIGN | 1, SIGN),
    Call::Pattern(1),
    Call::Pattern(SIGN | 1),
    Call::Product(1, 1),
    Call::Product(1, SIGN | 1),
    Call::Product(SIGN, INFINITY),
];

/// What a total is made of that is joined to others.
const GROUPS: [&[Call]; 8] = [
    &[],
    &[MINUS_ZERO],
    &[MINUS_ZERO, Call::Product(SIGN, ONE), Call::Product(SIGN | 1, 0)],
    &[PLUS_ZERO],
    &[MINUS_ZERO, Call::Product(SIGN, SIGN)],
    &[Call::Pattern(ONE), Call::Pattern(SIGN | ONE)],
    &[Call::Pattern(SIGN | ONE)],
    &[Call::Product(1, SIGN | 1)],
];

const FACTORS: [u32; 10] =
    [0, 1, SMALLEST_NORMAL, ONE, LARGEST, SIGN, SIGN | 1, SIGN | SMALLEST_NORMAL, SIGN | ONE, SIGN | LARGEST];

/// A chunk for each first term, one for the factors, one for each last term of a full column, and one for each two groups.
pub const CHUNKS: u64 = (TERMS.len() + 1 + LASTS.len() + GROUPS.len() * GROUPS.len()) as u64;

pub fn constructed(chunk: usize, r: &mut Random) -> Vec<Column> {
    let after_terms = chunk.checked_sub(TERMS.len());
    let after_factors = after_terms.and_then(|chunk| chunk.checked_sub(1));
    let after_lasts = after_factors.and_then(|chunk| chunk.checked_sub(LASTS.len()));
    match (after_terms, after_factors, after_lasts) {
        (_, _, Some(groups)) => joined(GROUPS[groups / GROUPS.len()], GROUPS[groups % GROUPS.len()], r),
        (_, Some(last), _) => vec![full(LASTS[last])],
        (Some(_), ..) => factors(),
        _ => runs(TERMS[chunk]),
    }
}

/// This term, and every two after it, with a reading after each; then cleared.
fn runs(first: Call) -> Vec<Column> {
    let run = |second, third| {
        let calls = [first, second, third, Call::Clear, MINUS_ZERO];
        Column::cleared(calls.into_iter().flat_map(read_after).collect())
    };
    TERMS.iter().flat_map(|&second| TERMS.iter().map(move |&third| run(second, third))).collect()
}

/// Each factor alone and every two of them, on totals that are empty, of -0, of +0 and of a number.
fn factors() -> Vec<Column> {
    let one = Number::at(1, 0);
    let starts = [
        Total::CLEARED,
        Total::minus_zeros(1),
        Total::minus_zeros(MOST - 1),
        Total::new(Number::ZERO, 1),
        Total::new(one, 2),
        Total::new(one.opposite(), MOST - 1),
    ];
    let products = FACTORS.iter().flat_map(|&x| FACTORS.iter().map(move |&y| Call::Product(x, y)));
    let terms: Vec<Call> = FACTORS.into_iter().map(Call::Pattern).chain(products).collect();
    let column = |start, term| Column::new(start, read_after(term).to_vec());
    starts.iter().flat_map(|&start| terms.iter().map(move |&term| column(start, term))).collect()
}

/// What comes after as many -0 as leave room for one term.
const LASTS: [Call; 4] = [MINUS_ZERO, PLUS_ZERO, Call::Product(SIGN | LARGEST, 0), Call::Product(SIGN, SIGN)];

fn full(last: Call) -> Column {
    let terms = [MINUS_ZERO, Call::Product(SIGN, ONE)].into_iter().cycle().take(MOST as usize - 1);
    let with_readings = |(i, call)| if i % 64 == 0 { read_after(call).to_vec() } else { vec![call] };
    let mut calls: Vec<Call> = terms.enumerate().flat_map(with_readings).collect();
    let refused = [PLUS_ZERO, MINUS_ZERO, Call::Product(SIGN, INFINITY)];
    calls.extend([last].into_iter().chain(refused).chain([Call::Clear]).flat_map(read_after));
    Column::cleared(calls)
}

/// Two groups with every third, each carried over or not: all joined to one, or the first two to each other before, and that
/// carried over or not. The trees are also made in the reversed order.
fn joined(first: &[Call], second: &[Call], r: &mut Random) -> Vec<Column> {
    let mut columns = Vec::new();
    for third in GROUPS {
        for bits in 0..8 {
            let part = |group: &[Call], bit: u32| {
                total(group.iter().map(|&term| Part::Term(term)), bits >> bit & 1 == 1)
            };
            let parts = || [part(first, 0), part(second, 1), part(third, 2)];
            columns.push(trees::column(&Tree(parts().into()), r));
            for carried in [false, true] {
                let [first, second, third] = parts();
                columns.push(trees::column(&Tree(vec![total([first, second], carried), third]), r));
            }
        }
    }
    columns
}

fn total(parts: impl IntoIterator<Item = Part>, carried: bool) -> Part {
    Part::Total { tree: Tree(parts.into_iter().collect()), carried }
}

/// Trees of zeros: -0 alone, one other among them, or any.
pub fn drawn(r: &mut Random) -> Column {
    let form = Form::drawn(r);
    let count = r.within(0, 16) as usize;
    let mut terms: Vec<Call> = (0..count).map(|_| terms::minus_zero(r)).collect();
    match r.within(0, 3) {
        0 => {}
        1 => terms.extend([terms::zero(r)]),
        2 => {
            let term = terms::term(r, terms::ANY);
            terms.extend([term, terms::opposite(term)]);
        }
        _ => terms = (0..count).map(|_| terms::zero(r)).collect(),
    }
    trees::of_form(form, shuffled(terms, r), r)
}
