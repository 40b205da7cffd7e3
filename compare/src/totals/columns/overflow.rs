//! Totals at 2^128 - 2^103, where reading overflows, and above.
use super::terms::powers;
use super::{read_after, Column};
use crate::pattern::{LARGEST, SIGN};
use crate::random::Random;
use crate::totals::call::Call;
use crate::totals::model::{overflow_edge, Total};
use crate::totals::number::Number;

/// A chunk for each power of two that a total of so many terms has.
pub const CHUNKS: u64 = 570;
const COUNT: u32 = 60_000;

/// That far from the edge on either side; and the power itself.
pub fn constructed(place: u32) -> Vec<Column> {
    let (edge, power) = (overflow_edge(), Number::at(1, place));
    // Two powers of the highest would not fit.
    let top = if place < 569 { power } else { Number::ZERO };
    let numbers = [edge, edge.plus(&top), edge.minus(&power), power, power.minus(&Number::at(1, 0))];
    numbers.iter().flat_map(both_signs).collect()
}

fn both_signs(number: &Number) -> [Column; 2] {
    let moves = [Call::Product(1, 1), Call::Product(SIGN | 1, 1), Call::Product(SIGN | 1, 1)];
    let calls: Vec<Call> = [Call::Read].into_iter().chain(moves.into_iter().flat_map(read_after)).collect();
    let column = |number| Column::new(Total::new(number, COUNT), calls.clone());
    [column(*number), column(number.opposite())]
}

/// The largest pattern, about half its unit, and a little that puts the total on one side of the edge.
pub fn drawn(r: &mut Random) -> Column {
    let half = 0x7300_0000u32.wrapping_add_signed(r.within(-2, 2));
    let little = powers(r.within(0, 400) as u32)[0];
    let mut calls = vec![Call::Pattern(LARGEST), Call::Pattern(half), little];
    if r.once_in(2) {
        calls = calls.into_iter().map(super::terms::opposite).collect();
    }
    let last = calls[2];
    calls.extend([super::terms::opposite(last), super::terms::opposite(last)]);
    Column::cleared(calls.into_iter().flat_map(read_after).collect())
}
