//! Totals at a tie of first or of second, or beside it by the least that there is.
use super::{read_after, Column};
use crate::pattern::SIGN;
use crate::random::Random;
use crate::totals::call::Call;
use crate::totals::model::{Total, LAST, ONE};
use crate::totals::number::Number;

/// The highest place of a pattern's last bit.
const TOP: u32 = ONE + 104;
/// A chunk for each place of first's last bit.
pub const CHUNKS: u64 = (TOP - LAST + 1) as u64;

const SIGNIFICANDS: [u64; 7] =
    [1 << 23, (1 << 23) + 1, (1 << 23) + 2, 0xAA_AAAB, 0xD5_5554, (1 << 24) - 2, (1 << 24) - 1];
/// These only the lowest place has.
const SUBNORMAL: [u64; 4] = [0, 1, 2, (1 << 23) - 1];

/// How far second's last bit lies below first's: as near as it can be, and farther down.
const GAPS: [u32; 5] = [25, 26, 49, 97, 201];
const SECONDS: [u64; 3] = [1 << 23, (1 << 23) + 1, (1 << 24) - 1];

/// The least that there is, to either side; and 2^-149.
const UP: Call = Call::Product(1, 1);
const DOWN: Call = Call::Product(SIGN | 1, 1);
const OVER: Call = Call::Pattern(1);
const UNDER: Call = Call::Pattern(SIGN | 1);

pub fn constructed(chunk: u32) -> Vec<Column> {
    let place = LAST + chunk;
    let lowest = SUBNORMAL.iter().filter(|_| place == LAST);
    let significands = SIGNIFICANDS.iter().chain(lowest);
    significands
        .flat_map(|&significand| {
            first_ties(significand, place).into_iter().chain(second_ties(significand, place))
        })
        .collect()
}

/// Half a unit of first on either side of it.
fn first_ties(significand: u64, place: u32) -> Vec<Column> {
    let tie = Number::at(1, place - 1);
    about(&Number::at(significand, place), &tie, &[UP, DOWN, DOWN, UP, OVER, UNDER, UNDER])
}

/// A second and half a unit of it, on either side of first, which stays what it is.
fn second_ties(significand: u64, place: u32) -> Vec<Column> {
    let first = Number::at(significand, place);
    let lasts = GAPS.iter().filter_map(|gap| place.checked_sub(*gap)).filter(|&last| last >= LAST);
    let rests = lasts.flat_map(|last| SECONDS.map(|second| Number::at(2 * second + 1, last - 1)));
    rests.flat_map(|rest| about(&first, &rest, &[UP, DOWN, DOWN])).collect()
}

/// Both signs of a first with a rest on either side, read before and after each move.
fn about(first: &Number, rest: &Number, moves: &[Call]) -> Vec<Column> {
    let calls: Vec<Call> =
        [Call::Read].into_iter().chain(moves.iter().copied().flat_map(read_after)).collect();
    let column = |number| Column::new(Total::new(number, 2), calls.clone());
    let numbers = [first.plus(rest), first.minus(rest)];
    numbers.iter().flat_map(|number| [column(*number), column(number.opposite())]).collect()
}

/// A first, a second and half a unit of it, with a trace at any place or none.
pub fn drawn(r: &mut Random) -> Column {
    let place = r.within(LAST as i32, TOP as i32) as u32;
    let first = Number::at(significand(r), place);
    let last = r.within(LAST as i32, place as i32) as u32;
    let rest = Number::at(2 * significand(r) + 1, last - 1);
    let with = |a: &Number, b: &Number, negative: bool| if negative { a.minus(b) } else { a.plus(b) };
    let tie = with(&first, &rest, r.once_in(2));
    let trace = Number::at(1, r.within(0, last as i32 - 1) as u32);
    let number = if r.once_in(4) { tie } else { with(&tie, &trace, r.once_in(2)) };
    let number = if r.once_in(2) { number } else { number.opposite() };
    let calls = [Call::Read, DOWN, Call::Read, Call::Product(1, 2), Call::Read];
    Column::new(Total::new(number, 2), calls.to_vec())
}

/// Of 24 bits or fewer.
fn significand(r: &mut Random) -> u64 {
    if r.once_in(2) {
        return SIGNIFICANDS[r.within(0, 6) as usize];
    }
    let bits = r.within(1, 24) as u32;
    r.bits(bits)
}
