//! Products of about 2^-100 and less, where second has no room for every bit, and further down first has none.
use crate::pattern::{exact, moved, power};
use crate::products::inverse;
use crate::random::Random;
use crate::step::Question;
use crate::sums::number;

pub fn question(r: &mut Random) -> Question {
    let (x, y) = match r.within(0, 3) {
        0 => {
            let (first, second) = (r.within(1, 24) as u32, r.within(1, 24) as u32);
            let last = if r.once_in(4) { -149 } else { -150 };
            let (x, y) = half_units(first, second, last, r);
            (moved(x, i64::from(r.within(-1, 1))), y)
        }
        1 => beside_tie_of_first(r.within(0, 23) as u32, r),
        2 => beside_tie_by_a_bit(r.within(1, 24) as u32, r),
        _ => any(r),
    };
    Question::two(x ^ (r.sign() << 31), y ^ (r.sign() << 31))
}

/// Odd factors of so many bits, and a product whose last bit is worth 2^last. With -150 that is half of
/// 2^-149: a tie of first, or of second where the product has more than 25 bits. With -149 it is exact.
fn half_units(first: u32, second: u32, last: i32, r: &mut Random) -> (u32, u32) {
    let (a, b) = (r.odd(first), r.odd(second));
    shared(a, b, last, r)
}

/// The factors with powers of two that make up 2^last.
fn shared(a: u64, b: u64, last: i32, r: &mut Random) -> (u32, u32) {
    // Neither factor's last bit is worth less than 2^-149.
    let share = r.within(-149, last + 149);
    let x = exact(0, a, share).expect("24 bits in range");
    let y = exact(0, b, last - share).expect("24 bits in range");
    (x, y)
}

/// The next product below or above a tie of a first of `kept` bits, so near to it that the tie may be all
/// that 24 bits show. The second factor is the tie's quotient by the first, cut to a whole number.
fn beside_tie_of_first(kept: u32, r: &mut Random) -> (u32, u32) {
    let half = 46 - kept;
    let odd_halves = if kept == 0 { 1 } else { (1 << kept) | r.bits(kept) | 1 };
    let a = (1 << 23) | r.bits(23);
    let b = (odd_halves << half) / a + r.bits(1);
    shared(a, b, -150 - half as i32, r)
}

/// A product whose last `dropped` bits lie below 2^-149 and are a tie, or off it by one in the last bit: a tie of
/// second, or with 24 of first. The second factor's last bits are that, divided by the first modulo a power of two.
fn beside_tie_by_a_bit(dropped: u32, r: &mut Random) -> (u32, u32) {
    let a = r.odd(24);
    let beside = (1u64 << (dropped - 1)) + 1 - r.within(0, 2) as u64;
    let mask = (1 << dropped) - 1;
    let b = (((1 << 23) | r.bits(23)) & !mask) | (inverse(a).wrapping_mul(beside) & mask);
    shared(a, b, -149 - dropped as i32, r)
}

/// Any product from 2^-152 to below 2^-99.
fn any(r: &mut Random) -> (u32, u32) {
    let exponent = r.within(-152, -101);
    let field = r.within(1, exponent + 253);
    (number(r, field), number(r, exponent + 254 - field))
}

/// The same for the edges, by lengths in turn; the stream is fixed.
pub fn products() -> Vec<(u32, u32)> {
    let mut r = Random::stream(0, &[300]);
    let lengths = (1..=24).flat_map(|first| (1..=24).map(move |second| (first, second)));
    let mut all: Vec<_> = lengths.map(|(first, second)| half_units(first, second, -150, &mut r)).collect();
    for _ in 0..24 {
        all.extend((0..=23).map(|kept| beside_tie_of_first(kept, &mut r)));
        all.extend((1..=24).map(|dropped| beside_tie_by_a_bit(dropped, &mut r)));
    }
    all.extend((-152..=-99).flat_map(about_power));
    all
}

/// Products about 2^exponent: powers of two, and numbers times about their reciprocals.
fn about_power(exponent: i32) -> impl Iterator<Item = (u32, u32)> {
    // 1 and its neighbour, the root of 2, 5/3 and the largest below 2: what the first factor can be.
    let starts = [0x0000_0000, 0x0000_0001, 0x0035_04F3, 0x0055_5555, 0x007F_FFFF];
    let shares = [-126, -101, -75, -51, -25, 0, 24];
    shares.into_iter().flat_map(move |share| {
        starts.into_iter().map(move |fraction| {
            let x = power(share) | fraction;
            let quotient = 2f64.powi(exponent) / f64::from(f32::from_bits(x));
            (x, (quotient as f32).to_bits())
        })
    })
}
