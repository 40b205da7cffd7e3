//! Patterns of binary32: a sign bit, an exponent field of 8 bits, a fraction field of 23.

pub const SIGN: u32 = 0x8000_0000;
pub const INFINITY: u32 = 0x7F80_0000;
pub const LARGEST: u32 = 0x7F7F_FFFF;
pub const SMALLEST_NORMAL: u32 = 0x0080_0000;
pub const FRACTION: u32 = 0x007F_FFFF;
/// The fraction bit that a quiet NaN has and a signalling one has not.
pub const QUIET: u32 = 0x0040_0000;
/// The NaN of operands that are not NaN.
pub const NAN: u32 = 0x7FC0_0000;

/// A pattern as it is written: eight upper-case hexadecimal digits.
pub fn read(word: &str) -> Option<u32> {
    let digits = word.len() == 8 && word.bytes().all(|b| matches!(b, b'0'..=b'9' | b'A'..=b'F'));
    if digits {
        u32::from_str_radix(word, 16).ok()
    } else {
        None
    }
}

/// The pattern of 2^exponent, for a normal power of two.
pub const fn power(exponent: i32) -> u32 {
    ((exponent + 127) as u32) << 23
}

pub fn fields(sign: u32, exponent: i32, fraction: u32) -> u32 {
    (sign << 31) | ((exponent.clamp(0, 254) as u32) << 23) | (fraction & FRACTION)
}

pub fn exponent_field(x: u32) -> i32 {
    ((x >> 23) & 0xFF) as i32
}

pub fn magnitude(x: u32) -> u32 {
    x & !SIGN
}

pub fn is_nan(x: u32) -> bool {
    magnitude(x) > INFINITY
}

pub fn is_signalling(x: u32) -> bool {
    is_nan(x) && x & QUIET == 0
}

pub fn is_finite(x: u32) -> bool {
    magnitude(x) < INFINITY
}

pub fn is_subnormal(x: u32) -> bool {
    magnitude(x) != 0 && magnitude(x) < SMALLEST_NORMAL
}

/// `x` moved by `units` in its last place, its sign kept.
pub fn moved(x: u32, units: i64) -> u32 {
    let m = (i64::from(magnitude(x)) + units).clamp(0, i64::from(LARGEST));
    (x & SIGN) | m as u32
}

/// The pattern of ±significand * 2^exponent, where binary32 has that very value.
pub fn exact(sign: u32, significand: u64, exponent: i32) -> Option<u32> {
    if significand == 0 {
        return Some(sign << 31);
    }
    let top = 64 - significand.leading_zeros() as i32 + exponent;
    if top > 128 {
        return None;
    }
    let last = (top - 24).max(-149);
    let kept = if exponent >= last {
        significand << (exponent - last)
    } else {
        let dropped = (last - exponent) as u32;
        if dropped >= 64 || significand.trailing_zeros() < dropped {
            return None;
        }
        significand >> dropped
    };
    // A significand below 2^23 borrows from the exponent field, which is then 0.
    Some((sign << 31) | ((((last + 150) as u32) << 23) + kept as u32 - SMALLEST_NORMAL))
}
