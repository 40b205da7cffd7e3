//! Totals about 2^-150, half of what the smallest pattern stands for.
use super::terms::power;
use super::{read_after, Column};
use crate::pattern::{exact, SIGN};
use crate::random::Random;
use crate::totals::call::Call;
use crate::totals::model::{Total, LAST};
use crate::totals::number::Number;

/// At and beside each of the first multiples of 2^-150, of both signs.
pub fn constructed() -> Vec<Column> {
    let one = Number::at(1, 0);
    let halves = (0..=40).map(|count| Number::at(count, LAST - 1));
    let powers = (0..LAST).map(|place| Number::at(1, place));
    let beside = halves.chain(powers).flat_map(|number| [number.minus(&one), number, number.plus(&one)]);
    beside.flat_map(|number| [number, number.opposite()]).map(column).collect()
}

/// Read, and moved by the least that there is.
fn column(number: Number) -> Column {
    let (up, down) = (Call::Product(1, 1), Call::Product(SIGN | 1, 1));
    let calls = [Call::Read, up, Call::Read, down, down, Call::Read, power(LAST - 1), Call::Read];
    Column::new(Total::new(number, 1), calls.to_vec())
}

const TERMS: usize = 24;

/// Products from 2^-298 to about 2^-140, and now and then a subnormal pattern.
pub fn drawn(r: &mut Random) -> Column {
    let high = r.within(0, 158);
    Column::cleared((0..TERMS).flat_map(|_| read_after(term(high, r))).collect())
}

fn term(high: i32, r: &mut Random) -> Call {
    if r.once_in(16) {
        return Call::Pattern(r.sign() << 31 | r.within(0, 3) as u32);
    }
    let place = r.within((high - 12).max(0), high);
    let first = place / 2;
    Call::Product(factor(first, r), factor(place - first, r))
}

/// So many places above 2^-149, less the bits that it has.
fn factor(place: i32, r: &mut Random) -> u32 {
    let bits = r.within(1, (place + 1).min(24));
    let significand = r.odd(bits as u32);
    exact(r.sign(), significand, place - bits + 1 - 149).expect("bits above 2^-149")
}
