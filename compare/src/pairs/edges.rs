//! Questions where a pair is likely to go wrong: every pair of the edge patterns, and constructed ones.
use super::pair::Operation;
use super::{below_power, tiny};
use crate::pattern::{exact, fields, moved, power, SIGN};
use crate::random::Random;
use crate::step::Question;
use crate::{edges, products};

pub struct Edges {
    sums: Vec<Question>,
    products: Vec<Question>,
    /// All pairs of these are asked.
    pub patterns: Vec<u32>,
}

impl Edges {
    pub fn new() -> Edges {
        let mut products = spread(&below_power::products());
        products.extend(spread(&tiny::products()));
        products.extend(product_ties());
        let mut sums = spread(&below_power::sums());
        sums.extend(spread(&sum_ties()));
        Edges { sums, products, patterns: patterns() }
    }

    /// The constructed questions. Those of a difference are a sum's, with the second sign turned.
    pub fn constructed(&self, operation: Operation) -> &[Question] {
        match operation {
            Operation::Sum | Operation::Difference => &self.sums,
            Operation::Product => &self.products,
        }
    }
}

/// The edge patterns of the steps, and more where a pair's exponents meet.
fn patterns() -> Vec<u32> {
    let mut all = edges::patterns();
    // Products of these are about 2^-125, 2^-102 and the border to infinity; sums are at half units apart.
    for e in [-123, -100, -79, -78, -77, -53, -52, -51, -50, -49, -27, -13, -2, 52, 76, 77, 78, 79, 80, 105] {
        all.extend((power(e) - 1..=power(e) + 1).flat_map(|x| [x, x | SIGN]));
    }
    all.sort_unstable();
    all.dedup();
    all
}

/// Each question in both orders and with all signs, and with either operand or both moved by a unit.
fn spread(operands: &[(u32, u32)]) -> Vec<Question> {
    let moves = (-1..=1).flat_map(|i| (-1..=1).map(move |j| (i, j)));
    let signs = [(0, 0), (0, SIGN), (SIGN, 0), (SIGN, SIGN)];
    let variants: Vec<_> = moves.flat_map(|by| signs.map(|sign| (by, sign))).collect();
    let varied = |&(x, y): &(u32, u32)| {
        variants.iter().flat_map(move |&((i, j), (s, t))| {
            let (x, y) = (moved(x ^ s, i), moved(y ^ t, j));
            [Question::two(x, y), Question::two(y, x)]
        })
    };
    operands.iter().flat_map(varied).collect()
}

/// A number, and an odd count of half its units.
fn sum_ties() -> Vec<(u32, u32)> {
    let fractions = [0, 1, 2, 3, 0x2A_AAAA, 0x40_0000, 0x55_5555, 0x7F_FFFD, 0x7F_FFFE, 0x7F_FFFF];
    let counts = (0..24).flat_map(|bit| [(1u64 << bit) | 1, (1 << (bit + 1)) - 1]);
    let counts: Vec<u64> = counts.collect();
    let fields_of = [2, 3, 4, 23, 24, 25, 26, 27, 127, 253, 254];
    let numbers = fields_of.into_iter().flat_map(|e| fractions.map(|fraction| (e, fields(0, e, fraction))));
    // The last bit of a number is worth 2^(field - 150).
    let half_units = |e: i32, count: u64| exact(0, count, e - 151).expect("24 bits in range");
    numbers.flat_map(|(e, x)| counts.iter().map(move |&count| (x, half_units(e, count)))).collect()
}

/// Normal products at a tie or beside it; the stream is fixed.
fn product_ties() -> Vec<Question> {
    let mut r = Random::stream(0, &[301]);
    (0..50_000).map(|_| products::halfway(&mut r)).collect()
}
