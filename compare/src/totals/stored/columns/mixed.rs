//! Random finite terms on one total, from a seed of their own.
use crate::pattern::fields;
use crate::random::Random;
use crate::totals::call::Call;
use crate::totals::stored::record::Column;

const SEED: u64 = 3;
const TERMS: usize = 32;

/// What a column's terms are.
#[derive(Clone, Copy)]
enum Kind {
    Patterns,
    Products,
    Either,
}

/// The kind, and the exponent fields that operands have.
const COLUMNS: [(&str, Kind, (i32, i32)); 8] = [
    ("patterns of any exponents", Kind::Patterns, (0, 254)),
    ("products of any exponents", Kind::Products, (0, 254)),
    ("terms of any exponents", Kind::Either, (0, 254)),
    ("terms of near exponents", Kind::Either, (124, 130)),
    ("terms of the least exponents", Kind::Either, (0, 2)),
    ("terms of the greatest exponents", Kind::Either, (252, 254)),
    ("products as large as the least patterns", Kind::Products, (40, 80)),
    ("patterns that overlap", Kind::Patterns, (90, 120)),
];

pub fn columns() -> Vec<Column> {
    let columns = COLUMNS.into_iter().enumerate();
    columns.map(|(i, (shows, kind, exponents))| column(i as u64, shows, kind, exponents)).collect()
}

fn column(number: u64, shows: &str, kind: Kind, (low, high): (i32, i32)) -> Column {
    let mut r = Random::stream(SEED, &[number]);
    let operand = |r: &mut Random| fields(r.sign(), r.within(low, high), r.pattern());
    let terms = (0..TERMS).map(|_| match kind {
        Kind::Patterns => Call::Pattern(operand(&mut r)),
        Kind::Products => Call::Product(operand(&mut r), operand(&mut r)),
        Kind::Either if r.once_in(2) => Call::Pattern(operand(&mut r)),
        Kind::Either => Call::Product(operand(&mut r), operand(&mut r)),
    });
    Column::cleared(format!("random {shows}"), terms.collect())
}
