//! Patterns where a step is likely to go wrong. Every pair of them, or every triple, is asked.
use crate::pattern::{power, INFINITY, LARGEST, NAN, SIGN, SMALLEST_NORMAL};

/// All edge patterns, with both signs.
pub fn patterns() -> Vec<u32> {
    let mut all = Vec::new();
    subnormals(&mut all);
    powers(&mut all);
    largest(&mut all);
    halfway_makers(&mut all);
    not_numbers(&mut all);
    all.sort_unstable();
    all.dedup();
    let negative: Vec<u32> = all.iter().map(|m| m | SIGN).collect();
    all.extend(negative);
    all
}

fn around(all: &mut Vec<u32>, centre: u32, reach: u32) {
    all.extend(centre - reach..=centre + reach);
}

/// Zero, every subnormal power of two, and the border to the normal numbers.
fn subnormals(all: &mut Vec<u32>) {
    all.extend(0..=5);
    all.extend((0..23).map(|k| 1 << k));
    around(all, 0x0040_0000, 1);
    all.extend([0x0000_0FFF, 0x0020_0001, 0x0055_5555, 0x007F_FFFC]);
    around(all, SMALLEST_NORMAL, 2);
}

/// Normal powers of two, and their neighbours, where the spacing of the numbers changes.
fn powers(all: &mut Vec<u32>) {
    // 2^-149 * 2^47 = 2^-102: below it a unit in the last place is subnormal.
    for e in [-125, -124, -104, -103, -102, -101] {
        around(all, power(e), 1);
    }
    // Products that fall on 2^-149, on its half, and on the smallest normal number.
    for e in [-76, -75, -74, -63, -62] {
        around(all, power(e), 1);
    }
    // A unit and half a unit in the last place of 1, and of its neighbours.
    for e in [-26, -25, -24, -23, -22, -12, -1] {
        around(all, power(e), 1);
    }
    around(all, power(0), 3);
    for e in [1, 2, 12] {
        around(all, power(e), 1);
    }
    // From here on every number is an integer, and then an even one.
    for e in [22, 23, 24, 25] {
        around(all, power(e), 1);
    }
    for e in [63, 64] {
        around(all, power(e), 1);
    }
}

/// The border to infinity: 2^103 is half a unit in the last place of the largest number.
fn largest(all: &mut Vec<u32>) {
    for e in [101, 102, 103, 104, 126, 127] {
        around(all, power(e), 1);
    }
    all.extend(LARGEST - 3..=LARGEST);
    all.push(INFINITY);
}

/// Numbers whose sums and products lie at a tie or beside one.
fn halfway_makers(all: &mut Vec<u32>) {
    // 1.5, 1.25 and 1.75, and 1.5 * 2^-24: odd counts of half a unit.
    for centre in [0x3FC0_0000, 0x3FA0_0000, 0x3FE0_0000, 0x33C0_0000] {
        around(all, centre, 1);
    }
    // Products of 25 bits: 24929 * 673 = 2^24 + 1, 4097 * 4097, 5793 * 5793, 8191 * 4095.
    all.extend([24929.0f32, 673.0, 4097.0, 5793.0, 8191.0, 4095.0, 3.0, 5.0].map(f32::to_bits));
    // 1/3, 1/10, the root of 2: significands with no pattern in their low bits.
    all.extend([0x3EAA_AAAB, 0x3DCC_CCCD, 0x3FB5_04F3, 0x3FFF_FFFE]);
}

/// Quiet ones first, then signalling ones.
fn not_numbers(all: &mut Vec<u32>) {
    all.extend([NAN, NAN + 1, 0x7FC1_2345, 0x7FD5_5555, 0x7FFF_FFFF]);
    all.extend([INFINITY + 1, INFINITY + 2, 0x7F81_2345, 0x7FA0_0000, 0x7FBF_FFFF]);
}
