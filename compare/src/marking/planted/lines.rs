//! Faults in which line is refused, and for what.
use super::rules::{about, Met, Rules, RIGHT};
use super::Row;
use crate::marking::model::Marked;
use crate::marking::worksheets::Shape;

pub const FAULTS: [Row; 27] = [
    (by(false_first), Shape::Faults, "15 before 14 on a line"),
    (by(|met| first(met, 14).or_else(|| first(met, 15))), Shape::Faults, "14 of any line before 15"),
    (by(|met| first(met, 15).or_else(|| first(met, 14))), Shape::Faults, "15 of any line before 14"),
    (by(|met| each(met).last()), Shape::Faults, "the last line that is refused"),
    (by(|met| told(met, |marked| marked.line -= 1)), Shape::Faults, "lines counted from 0"),
    (by(|met| told(met, |marked| marked.line += 1)), Shape::Faults, "lines counted from 2"),
    (by(|met| told(met, |marked| marked.line = 6 * marked.line - 5)), Shape::Faults, "words for lines"),
    (by(|met| told(met, |marked| marked.line = 0)), Shape::Faults, "no line"),
    (by(|met| told(met, |marked| marked.line *= marked.refusal - 14)), Shape::Faults, "no line with 14"),
    (by(|met| told(met, |marked| marked.line *= 15 - marked.refusal)), Shape::Faults, "no line with 15"),
    (by(|met| told(met, |marked| marked.right = true)), Shape::Faults, "right where it is refused"),
    (
        by(|met| told(met, |marked| marked.refusal = 29 - marked.refusal)),
        Shape::Faults,
        "14 and 15 exchanged",
    ),
    (by(|met| told(met, |marked| marked.refusal = 14)), Shape::Disturbed, "14 for 15"),
    (by(|met| told(met, |marked| marked.refusal = 15)), Shape::Disturbed, "15 for 14"),
    (by(|met| as_other(met, |met| met.result, 14)), Shape::Faults, "14 for a result"),
    (by(|met| as_other(met, |met| met.mark, 14)), Shape::Faults, "14 for a mark"),
    (by(|met| as_other(met, |met| met.step, 15)), Shape::Faults, "15 for an unknown step"),
    (by(|met| as_other(met, |met| met.operand, 15)), Shape::Faults, "15 for an operand"),
    (by(|met| as_other(met, |met| met.idle, 15)), Shape::Faults, "15 for an unused third"),
    (by(|_| None), Shape::Disturbed, "no line looked at"),
    (by(|met| first_of(&met[1..], 1)), Shape::Disturbed, "the first line not looked at"),
    (by(|met| first_of(&met[..met.len() - 1], 0)), Shape::Disturbed, "the last line not looked at"),
    (by(|met| first_of(&met[..met.len() - 2], 0)), Shape::Disturbed, "the last two lines not looked at"),
    (by(|met| first_of(&met[..met.len().min(13)], 0)), Shape::Faults, "lines behind the 13th not looked at"),
    (by(|met| first_of(&met[..met.len().min(64)], 0)), Shape::Faults, "lines behind the 64th not looked at"),
    (by(|met| (met.len() > 13).then(|| about(15, 13))), Shape::Walks, "15 for a line behind the 13th"),
    (by(|met| first(met, 14)), Shape::Faults, "no 15"),
];

const fn by(told: fn(&[Met]) -> Option<Marked>) -> Rules {
    Rules { told, ..RIGHT }
}

/// As it should be, and then spoilt.
fn told(met: &[Met], spoil: fn(&mut Marked)) -> Option<Marked> {
    let mut marked = (RIGHT.told)(met)?;
    spoil(&mut marked);
    Some(marked)
}

/// Every line that is refused, with why.
fn each(met: &[Met]) -> impl Iterator<Item = Marked> + '_ {
    met.iter().enumerate().filter_map(|(line, met)| met.told(line))
}

/// The first line that is refused for this.
fn first(met: &[Met], refusal: u32) -> Option<Marked> {
    each(met).find(|marked| marked.refusal == refusal)
}

/// Of lines that have so many before them.
fn first_of(met: &[Met], before: u32) -> Option<Marked> {
    (RIGHT.told)(met).map(|marked| Marked { line: marked.line + before, ..marked })
}

fn false_first(met: &[Met]) -> Option<Marked> {
    let told = |(line, met): (usize, &Met)| {
        let refusal = if met.is_false() { Some(15) } else { met.is_foreign().then_some(14) };
        refusal.map(|refusal| about(refusal, line))
    };
    met.iter().enumerate().find_map(told)
}

/// The first line that is refused has another refusal where it meets this.
fn as_other(met: &[Met], meets: fn(&Met) -> bool, refusal: u32) -> Option<Marked> {
    let marked = (RIGHT.told)(met)?;
    let is_spoilt = meets(&met[marked.line as usize - 1]);
    Some(if is_spoilt { Marked { refusal, ..marked } } else { marked })
}
