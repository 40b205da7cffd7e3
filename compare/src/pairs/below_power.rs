//! The tie just below a power of two, (2^25 - 1) * 2^place; with place 103 it is 2^128 - 2^103, the overflow edge.
use crate::pattern::{exact, moved};
use crate::random::Random;
use crate::step::Question;

const TIE: i64 = (1 << 25) - 1;

/// All of TIE's splits into two factors that have 24 bits at most: it is 31 * 601 * 1801.
const FACTORS: [(u64, u64); 3] = [(31, 1_082_401), (601, 55_831), (1801, 18_631)];

pub const OVERFLOW: i32 = 103;

/// Places where such a tie is asked for by the edges: the least, those about the borders of the branches for
/// tiny products, those about 1, and the largest.
const PLACES: [i32; 27] = [
    -176, -175, -174, -173, -152, -151, -150, -149, -148, -129, -128, -127, -126, -125, -124, -103, -102,
    -101, -50, -26, -25, -24, 0, 77, 101, 102, OVERFLOW,
];

/// The tie as a sum of `count * 2^place` and the rest, where both are numbers. The count is odd: from 2^24 on
/// the rest's last bit is worth 2 or more. There is no other split, as both cannot be below 2^24.
fn addends(place: i32, count: i64) -> Option<(u32, u32)> {
    let rest = TIE - count;
    let x = exact(u32::from(rest < 0), rest.unsigned_abs(), place)?;
    let y = exact(u32::from(count < 0), count.unsigned_abs(), place)?;
    Some((x, y))
}

/// Odd counts beside powers of two, of both signs.
fn counts() -> Vec<i64> {
    let near = (1..=24).flat_map(|bit| [1, 3, 5].map(|times| times << bit));
    let mut counts: Vec<i64> = near.flat_map(|even| [even - 1, even + 1]).collect();
    counts.extend([0x55_5555, 0x2A_AAAB, 0xB5_04F3]);
    counts.sort_unstable();
    counts.dedup();
    counts.iter().flat_map(|&count| [count, -count]).collect()
}

pub fn sums() -> Vec<(u32, u32)> {
    let counts = counts();
    PLACES.iter().flat_map(|&place| counts.iter().filter_map(move |&c| addends(place, c))).collect()
}

/// At the overflow edge every split, elsewhere one power of two in seven.
pub fn products() -> Vec<(u32, u32)> {
    let splits = |place| {
        let stride = if place == OVERFLOW { 1 } else { 7 };
        let shares = (-149..=127).step_by(stride);
        shares.flat_map(move |share| FACTORS.iter().filter_map(move |&f| factors(place, f, share)))
    };
    PLACES.iter().flat_map(|&place| splits(place)).collect()
}

/// The first factor is given 2^share, the second the rest of 2^place.
fn factors(place: i32, (a, b): (u64, u64), share: i32) -> Option<(u32, u32)> {
    Some((exact(0, a, share)?, exact(0, b, place - share)?))
}

pub fn sum(place: i32, r: &mut Random) -> Question {
    loop {
        let bits = r.within(1, 24) as u32;
        let count = r.odd(bits) as i64;
        let count = if r.once_in(4) { -count } else { count };
        if let Some((x, y)) = addends(place, count) {
            let turned = r.sign() << 31;
            return varied(x ^ turned, y ^ turned, r);
        }
    }
}

pub fn product(place: i32, r: &mut Random) -> Question {
    loop {
        let split = FACTORS[r.within(0, 2) as usize];
        if let Some((x, y)) = factors(place, split, r.within(-149, 127)) {
            let (s, t) = (r.sign() << 31, r.sign() << 31);
            return varied(x ^ s, y ^ t, r);
        }
    }
}

/// In either order, and one time in two with an operand moved by a unit.
fn varied(x: u32, y: u32, r: &mut Random) -> Question {
    let y = if r.once_in(2) { moved(y, if r.once_in(2) { 1 } else { -1 }) } else { y };
    if r.once_in(2) {
        Question::two(x, y)
    } else {
        Question::two(y, x)
    }
}
