//! Terms for a column.
use crate::pattern::{exact, fields, FRACTION, INFINITY, SIGN};
use crate::random::Random;
use crate::totals::call::Call;
use crate::totals::model::{LAST, ONE};

/// The exponent fields that the terms of a column have.
pub type Window = (i32, i32);

pub const ANY: Window = (0, 254);
/// Within 3 of 1's.
pub const NEAR: Window = (124, 130);
pub const LOWEST: Window = (0, 2);
pub const HIGHEST: Window = (252, 254);

pub fn window(r: &mut Random) -> Window {
    match r.within(0, 4) {
        0 => LOWEST,
        1 => HIGHEST,
        2 => ANY,
        _ => {
            let low = r.within(0, 246);
            (low, low + r.within(0, 8))
        }
    }
}

/// A finite pattern; some have fractions of all ones or zeros, which carry farthest.
pub fn number(r: &mut Random, window: Window) -> u32 {
    let fraction = match r.within(0, 7) {
        0 => 0,
        1 => FRACTION,
        2 => FRACTION ^ r.bits(3) as u32,
        _ => r.pattern(),
    };
    fields(r.sign(), r.within(window.0, window.1), fraction)
}

pub fn pattern(r: &mut Random, window: Window) -> Call {
    Call::Pattern(number(r, window))
}

pub fn product(r: &mut Random, window: Window) -> Call {
    Call::Product(number(r, window), number(r, window))
}

pub fn term(r: &mut Random, window: Window) -> Call {
    if r.once_in(2) {
        pattern(r, window)
    } else {
        product(r, window)
    }
}

/// A zero of either sign, alone or as a factor: a term that counts.
pub fn zero(r: &mut Random) -> Call {
    let zero = r.sign() << 31;
    match r.within(0, 2) {
        0 => Call::Pattern(zero),
        1 => Call::Product(zero, number(r, ANY)),
        _ => Call::Product(number(r, ANY), zero),
    }
}

pub const MINUS_ZERO: Call = Call::Pattern(SIGN);
pub const PLUS_ZERO: Call = Call::Pattern(0);

/// -0, alone or as a product.
pub fn minus_zero(r: &mut Random) -> Call {
    match zero(r) {
        Call::Product(x, y) if (x ^ y) & SIGN == 0 => Call::Product(x ^ SIGN, y),
        Call::Pattern(_) => MINUS_ZERO,
        product => product,
    }
}

/// An infinity, or a NaN of any payload.
fn not_finite(r: &mut Random) -> u32 {
    let payload = if r.once_in(2) { 0 } else { r.pattern() & FRACTION };
    r.sign() << 31 | INFINITY | payload
}

/// An adding call that is to be refused for its operands; zero times infinity is among them.
pub fn refused(r: &mut Random) -> Call {
    let bad = not_finite(r);
    let other = match r.within(0, 3) {
        0 => r.sign() << 31,
        1 => not_finite(r),
        _ => number(r, ANY),
    };
    match r.within(0, 2) {
        0 => Call::Pattern(bad),
        1 => Call::Product(bad, other),
        _ => Call::Product(other, bad),
    }
}

pub fn opposite(term: Call) -> Call {
    match term {
        Call::Pattern(x) => Call::Pattern(x ^ SIGN),
        Call::Product(x, y) => Call::Product(x, y ^ SIGN),
        Call::Clear | Call::Read => term,
    }
}

/// The highest place of a power of two among the products, and the places of those among the patterns.
pub const HIGHEST_PRODUCT: u32 = 552;
const PATTERNS: std::ops::RangeInclusive<u32> = LAST..=ONE + 127;

/// 2^place of 2^-298 as a product.
pub fn power(place: u32) -> Call {
    let exponent = place as i32 - ONE as i32;
    let first = exponent / 2;
    let factor = |exponent| exact(0, 1, exponent).expect("a power of two in range");
    Call::Product(factor(first), factor(exponent - first))
}

/// 2^place of 2^-298 as a product, and where there is such a pattern also as that.
pub fn powers(place: u32) -> Vec<Call> {
    let pattern = exact(0, 1, place as i32 - ONE as i32).filter(|_| PATTERNS.contains(&place));
    std::iter::once(power(place)).chain(pattern.map(Call::Pattern)).collect()
}
