//! Faults in the marks that are printed, as changes of the right text.
use super::text::{fields, lines, one, wrong_last};
use super::{MARK, RESULT};
use crate::pattern;
use crate::planted::marks;
use crate::sheets::files::Shape;
use crate::step::{Answer, Question, STEPS};

type Row = (fn(&str) -> String, Shape, &'static str);

pub const FAULTS: [Row; 24] = [
    (|t| steps(t, |fields| fields.truncate(MARK)), Shape::Uniform, "the mark left out"),
    (|t| fields(t, "step", MARK, |_| "0".to_string()), Shape::Uniform, "marks all 0"),
    (|t| fields(t, "step", MARK, |_| "1".to_string()), Shape::Uniform, "marks all 1"),
    (|t| one(t, "step", MARK, wrong_last), Shape::Uniform, "one wrong mark"),
    (|t| steps(t, |fields| fields.swap(RESULT, MARK)), Shape::Uniform, "the mark before the result"),
    (
        |t| fields(t, "step", MARK, |mark| format!("0000000{mark}")),
        Shape::Uniform,
        "the mark in eight digits",
    ),
    (|t| steps(t, |fields| fields[RESULT] += " "), Shape::Uniform, "a space before the mark's tab"),
    (|t| steps(t, |fields| fields[MARK] += "\t"), Shape::Uniform, "a tab behind the mark"),
    (behind_pairs, Shape::Uniform, "a mark behind the pair"),
    (of_line_before, Shape::Uniform, "the mark of the line before"),
    (of_line_before, Shape::Branches, "the mark of the line before"),
    (|t| marked(t, marks::cancelled), Shape::Branches, "1 for an exact zero"),
    (|t| marked(t, marks::of_zeros), Shape::Zeros, "1 for a zero of zeros"),
    (|t| marked(t, marks::lost_to_zero), Shape::Branches, "0 for what is rounded to zero"),
    (|t| marked(t, marks::exact_overflow), Shape::Branches, "0 at overflow"),
    (|t| marked(t, marks::short_overflow), Shape::Branches, "0 at overflow of what has 24 bits"),
    (|t| marked(t, marks::exact_infinity), Shape::Specials, "2 for NaN results alone, and else 0"),
    (|t| marked(t, marks::rounded_infinity), Shape::Specials, "2 for NaN results alone, and else 1"),
    (|t| marked(t, |_, _, right| right.mark.min(1)), Shape::Specials, "1 for infinite and NaN operands"),
    (|t| marked(t, marks::third_unseen), Shape::Branches, "the third operand not looked at"),
    (|t| marked(t, marks::beside_zero), Shape::Branches, "1 where a zero is added to a number far from it"),
    (|t| marked(t, marks::last_bit), Shape::Shaped, "exactness by the result's last bit"),
    (|t| fields(t, "step", MARK, |mark| mark.replace('1', "0")), Shape::Shaped, "no mark 1"),
    (on_nan_lines, Shape::Specials, "no mark on a NaN line 1"),
];

/// The lines of steps, changed as fields.
fn steps(text: &str, changed: impl Fn(&mut Vec<String>)) -> String {
    lines(text, |fields| {
        if fields[0] == "step" {
            changed(fields);
        }
    })
}

/// Each mark as a fault of steps has it.
fn marked(text: &str, fault: marks::Fault) -> String {
    let read = |field: &str| pattern::read(field).unwrap_or(0);
    steps(text, |fields| {
        let step = STEPS.into_iter().find(|step| step.name() == fields[2]).expect("a step");
        let q = Question { x: read(&fields[3]), y: read(&fields[4]), z: read(&fields[5]) };
        let mark = fields[MARK].parse().expect("a digit");
        fields[MARK] = fault(step, q, Answer { result: read(&fields[RESULT]), mark }).to_string();
    })
}

/// On line 1 nothing is before it.
fn of_line_before(text: &str) -> String {
    let mut before = "0".to_string();
    lines(text, |fields| match fields[0].as_str() {
        "ask" => before = "0".to_string(),
        "step" => std::mem::swap(&mut before, &mut fields[MARK]),
        _ => {}
    })
}

fn behind_pairs(text: &str) -> String {
    lines(text, |fields| {
        if fields[0] == "pair" {
            fields.push("0".to_string());
        }
    })
}

fn on_nan_lines(text: &str) -> String {
    let is_nan = |field: &str| pattern::read(field).is_some_and(pattern::is_nan);
    steps(text, |fields| {
        if fields[1] == "1" && is_nan(&fields[RESULT]) {
            fields.truncate(MARK);
        }
    })
}

/// A wrong mark in every step of this number.
pub fn on_line(text: &str, number: usize) -> String {
    steps(text, |fields| {
        if fields[1] == number.to_string() {
            fields[MARK] = wrong_last(&fields[MARK]);
        }
    })
}
