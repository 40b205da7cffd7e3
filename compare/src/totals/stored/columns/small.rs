//! Subnormal operands, and zeros of both signs.
use crate::pattern::{fields, FRACTION, LARGEST, SIGN, SMALLEST_NORMAL};
use crate::totals::call::Call;
use crate::totals::stored::record::Column;

pub fn columns() -> Vec<Column> {
    let apart = |shows: &str, terms: Vec<Call>| Column::cleared(shows, terms).apart();
    vec![
        apart("subnormal patterns", both_signs(&SUBNORMAL)),
        Column::cleared("the same on one total", both_signs(&SUBNORMAL)),
        apart("products of subnormal factors", products(&SUBNORMAL)),
        apart("a subnormal factor and a normal one, either of them first", with_normal()),
        apart("zeros as patterns and as factors", zeros()),
        Column::cleared("the same on a total that is not zero", beside_zeros()),
    ]
}

const SUBNORMAL: [u32; 6] = [1, 2, 3, 0x0040_0000, 0x0055_5555, FRACTION];

fn both_signs(patterns: &[u32]) -> Vec<Call> {
    patterns.iter().flat_map(|&x| [Call::Pattern(x), Call::Pattern(SIGN | x)]).collect()
}

fn products(factors: &[u32]) -> Vec<Call> {
    let pairs = factors.iter().enumerate().flat_map(|(i, &x)| factors[i..].iter().map(move |&y| (x, y)));
    // The sign is the first factor's, or the second's, or both have it.
    let signs = [(0, 0), (SIGN, 0), (0, SIGN), (SIGN, SIGN)];
    pairs.zip(signs.iter().cycle()).map(|((x, y), (s, t))| Call::Product(s | x, t | y)).collect()
}

/// Normal factors of exponents that lie 23 apart, so that the shifts differ.
fn with_normal() -> Vec<Call> {
    let exponents = (1..=254).step_by(23);
    let term = |(i, exponent): (usize, i32)| {
        let small = SUBNORMAL[i % SUBNORMAL.len()];
        let other = fields(i as u32 / 2 % 2, exponent, 0x2A_AAAB);
        if i.is_multiple_of(2) {
            Call::Product(small, other)
        } else {
            Call::Product(other, small)
        }
    };
    exponents.enumerate().map(term).chain([Call::Product(1, SMALLEST_NORMAL)]).collect()
}

fn zeros() -> Vec<Call> {
    let alone = [Call::Pattern(0), Call::Pattern(SIGN)];
    let zeros = [(0, 0), (0, SIGN), (SIGN, 0), (SIGN, SIGN)].map(|(x, y)| Call::Product(x, y));
    let others = [1, SIGN | SMALLEST_NORMAL, 0x3F80_0000, SIGN | LARGEST];
    let products = others.into_iter().flat_map(|x| [Call::Product(0, x), Call::Product(x, SIGN)]);
    alone.into_iter().chain(zeros).chain(products).collect()
}

fn beside_zeros() -> Vec<Call> {
    [Call::Pattern(0xBF80_0001), Call::Product(1, 3)].into_iter().chain(zeros()).collect()
}
