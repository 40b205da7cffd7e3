//! Faults in the NaN that sheets have, as changes of the right text.
use super::text::{fields, lines};
use crate::pattern::{self, is_nan, magnitude, NAN, QUIET, SIGN};
use crate::sheets::files::Shape;

type Row = (fn(&str) -> String, Shape, &'static str);

pub const FAULTS: [Row; 12] = [
    (
        |t| fields(t, "step", 6, |r| r.replace("7FC00000", "7FC00001")),
        Shape::Specials,
        "a NaN of another payload",
    ),
    (
        |t| fields(t, "step", 5, |z| z.replace("FFC00000", "7FC00000")),
        Shape::Specials,
        "a NaN that -a leaves alone",
    ),
    (on_line_4, Shape::Specials, "7FC00000 on line 4 of u times an infinity"),
    (|t| ended(t, |_, _| NAN), Shape::Specials, "a NaN's payload lost"),
    (|t| ended(t, |_, nan| nan & !SIGN), Shape::Specials, "a NaN's sign dropped"),
    (
        |t| ended(t, |line, nan| line.first_nan().unwrap_or(nan)),
        Shape::Specials,
        "a signalling NaN not quieted",
    ),
    (|t| ended(t, second_first), Shape::Specials, "the second NaN before the first"),
    (
        |t| ended(t, |line, nan| if line.first_nan().is_none() { nan | SIGN } else { nan }),
        Shape::Specials,
        "FFC00000 of operands that are not NaN",
    ),
    (|t| ended(t, not_flipped), Shape::Specials, "a difference's NaN not flipped"),
    (unlike_halves, Shape::Specials, "second 7FC00000 beside another NaN"),
    (exchanged, Shape::Specials, "operands exchanged before a NaN line 1"),
    (going_on, Shape::Specials, "a sheet that goes on after a NaN line 1"),
];

/// Line 1 of a question.
struct First {
    difference: bool,
    x: u32,
    y: u32,
}

impl First {
    fn first_nan(&self) -> Option<u32> {
        [self.x, self.y].into_iter().find(|&operand| is_nan(operand))
    }
}

fn second_first(line: &First, nan: u32) -> u32 {
    if is_nan(line.y) {
        line.y | QUIET
    } else {
        nan
    }
}

fn not_flipped(line: &First, nan: u32) -> u32 {
    if line.difference && !is_nan(line.x) && is_nan(line.y) {
        nan ^ SIGN
    } else {
        nan
    }
}

fn read(field: &str) -> u32 {
    pattern::read(field).expect("a pattern")
}

fn shown(pattern: u32) -> String {
    format!("{pattern:08X}")
}

/// A step numbered 1 whose result is NaN.
fn is_nan_line(fields: &[String]) -> bool {
    fields[0] == "step" && fields[1] == "1" && is_nan(read(&fields[6]))
}

/// Another NaN on line 1, and in the pair.
fn ended(text: &str, wrong: fn(&First, u32) -> u32) -> String {
    let (mut difference, mut nan) = (false, None);
    lines(text, |fields| match fields[0].as_str() {
        "ask" => (difference, nan) = (fields[2] == "dif", None),
        "step" if is_nan_line(fields) => {
            let line = First { difference, x: read(&fields[3]), y: read(&fields[4]) };
            fields[6] = shown(wrong(&line, read(&fields[6])));
            nan = Some(fields[6].clone());
        }
        "pair" => {
            if let Some(nan) = &nan {
                fields[1..3].fill(nan.clone());
            }
        }
        _ => {}
    })
}

fn on_line_4(text: &str) -> String {
    lines(text, |fields| {
        if fields[0] == "step" && fields[5] == "FFC00000" {
            fields[6] = fields[6].replace("FFC00000", "7FC00000");
        }
    })
}

fn unlike_halves(text: &str) -> String {
    lines(text, |fields| {
        if fields[0] == "pair" && is_nan(read(&fields[1])) {
            fields[2] = shown(NAN);
        }
    })
}

/// The larger pattern comes first, though it is a NaN's.
fn exchanged(text: &str) -> String {
    lines(text, |fields| {
        if is_nan_line(fields) && magnitude(read(&fields[4])) > magnitude(read(&fields[3])) {
            fields.swap(3, 4);
        }
    })
}

/// With a line more, as a sum would go on.
fn going_on(text: &str) -> String {
    lines(text, |fields| {
        if is_nan_line(fields) {
            let (x, nan) = (fields[3].clone(), fields[6].clone());
            let next = ["step", "2", "sub", &nan, &x, "-", &nan, "2"].join("\t");
            fields[7] = format!("2\n{next}");
        }
    })
}
