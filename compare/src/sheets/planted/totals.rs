//! Faults in the total that is printed.
use crate::pattern::{self, is_finite, magnitude, SIGN};
use crate::sheets::files::Shape;
use crate::sheets::model::MOST;
use crate::totals::call::Reading;
use crate::totals::model::{Term, Total};

type Row = (fn(&str) -> String, Shape, &'static str);

pub const FAULTS: [Row; 15] = [
    (
        |t| totalled(t, |p| exact(p, |_, flags| !flags.contains('U'), true)),
        Shape::Cancelling,
        "a total without UX pairs",
    ),
    (|t| totalled(t, |p| exact(p, |_, _| true, false)), Shape::Cancelling, "a total of firsts alone"),
    (|t| totalled(t, |p| exact(p, |i, _| i > 0, true)), Shape::Cancelling, "a total without the first pair"),
    (
        |t| totalled(t, |p| exact(&p[..p.len().max(1) - 1], |_, _| true, true)),
        Shape::Cancelling,
        "a total without the last pair",
    ),
    (|t| totalled(t, in_floats), Shape::Cancelling, "a total in floats"),
    (
        |t| t.replace("total\t00000000\t00000000", "total\t80000000\t80000000"),
        Shape::Cancelling,
        "-0 of a zero total",
    ),
    (
        |t| t.replace("total\t80000000\t80000000", "total\t00000000\t00000000"),
        Shape::Zeros,
        "+0 of a total of -0 alone",
    ),
    (
        |t| t.replace("total\t80000000\t80000000", "total\t80000000\t00000000"),
        Shape::Zeros,
        "second +0 of a total of -0 alone",
    ),
    (
        |t| t.replace("total\t00000000\t00000000", "total\t80000000\t80000000"),
        Shape::Zeros,
        "-0 of a total with another zero",
    ),
    (
        |t| totalled(t, |p| if p.is_empty() { MINUS } else { exact(p, |_, _| true, true) }),
        Shape::Ends,
        "-0 of no pairs",
    ),
    (|t| totalled(t, without_finite), Shape::Zeros, "-0 of no finite pairs"),
    (
        |t| totalled(t, |p| exact(p, |_, flags| !flags.contains('U'), true)),
        Shape::Zeros,
        "a total without products that round to -0",
    ),
    (|t| totalled(t, first_zero), Shape::Zeros, "a total whose sign is that of its first zero"),
    (|t| totalled(t, without_last), Shape::Full, "a total one pair too short for a full list"),
    (|t| totalled(t, infinite_too), Shape::Specials, "a total that an infinite pair spoils"),
];

const MINUS: Reading = Reading { refusal: 0, first: SIGN, second: SIGN };

/// First, second and flags, as printed.
type Printed<'a> = (u32, u32, &'a str);

/// The text, with another total.
fn totalled(text: &str, total: impl Fn(&[Printed]) -> Reading) -> String {
    let pairs: Vec<Printed> = text.lines().filter_map(pair).collect();
    let read = total(&pairs);
    let line = |line: &str| match line.starts_with("total") {
        true => format!("total\t{:08X}\t{:08X}\n", read.first, read.second),
        false => format!("{line}\n"),
    };
    text.lines().map(line).collect()
}

fn pair(line: &str) -> Option<Printed<'_>> {
    let fields: Vec<&str> = line.split('\t').collect();
    match fields.as_slice() {
        ["pair", first, second, flags] => Some((pattern::read(first)?, pattern::read(second)?, flags)),
        _ => None,
    }
}

/// Of the finite pairs that are wanted, first and perhaps second.
fn exact(pairs: &[Printed], wanted: impl Fn(usize, &str) -> bool, seconds: bool) -> Reading {
    let finite = pairs.iter().enumerate().filter(|(i, pair)| is_finite(pair.0) && wanted(*i, pair.2));
    let total = finite.fold(Total::CLEARED, |total, (_, pair)| {
        let total = total.with(&Term::pattern(pair.0));
        if seconds {
            total.with(&Term::pattern(pair.1))
        } else {
            total
        }
    });
    total.reading()
}

/// Rounded at every term, and nothing left over.
fn in_floats(pairs: &[Printed]) -> Reading {
    let finite = pairs.iter().filter(|pair| is_finite(pair.0));
    let sum: f32 = finite.flat_map(|pair| [pair.0, pair.1]).map(f32::from_bits).sum();
    Reading::of(sum.to_bits(), sum.to_bits() & 0x8000_0000)
}

fn without_last(pairs: &[Printed]) -> Reading {
    let few = if pairs.len() == MOST { MOST - 1 } else { pairs.len() };
    exact(&pairs[..few], |_, _| true, true)
}

fn infinite_too(pairs: &[Printed]) -> Reading {
    match pairs.iter().find(|pair| !is_finite(pair.0)) {
        Some(pair) => Reading::of(pair.0, pair.0),
        None => exact(pairs, |_, _| true, true),
    }
}

fn without_finite(pairs: &[Printed]) -> Reading {
    let read = exact(pairs, |_, _| true, true);
    if pairs.iter().any(|pair| is_finite(pair.0)) {
        read
    } else {
        MINUS
    }
}

fn first_zero(pairs: &[Printed]) -> Reading {
    let read = exact(pairs, |_, _| true, true);
    match pairs.iter().find(|pair| magnitude(pair.0) == 0) {
        Some(pair) if magnitude(read.first) == 0 => Reading::of(pair.0, pair.0),
        _ => read,
    }
}
