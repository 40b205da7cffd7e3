//! Random patterns that rules of their own are for: most of them NaN, infinite, zero or the smallest.
use crate::pattern::{FRACTION, INFINITY, QUIET};
use crate::random::Random;

pub fn pattern(r: &mut Random) -> u32 {
    match r.within(0, 7) {
        0..=3 => nan(r),
        4 => (r.sign() << 31) | INFINITY,
        5 => r.sign() << 31,
        6 => (r.sign() << 31) | 1,
        _ => r.pattern(),
    }
}

/// Quiet and signalling ones of any payload, half of them a small one. Where no bit is set, it is an infinity.
fn nan(r: &mut Random) -> u32 {
    let kept = if r.once_in(2) { FRACTION } else { QUIET | 7 };
    (r.sign() << 31) | INFINITY | (r.pattern() & kept)
}
