//! Faults in what is refused before any line is looked at, by 10 and by 13.
use super::rules::{Rules, RIGHT};
use super::Row;
use crate::marking::model::{Marked, LINE};
use crate::marking::worksheet::Worksheet;
use crate::marking::worksheets::Shape;

pub const FAULTS: [Row; 22] = [
    (by_count(|words| is_count(words, 2, 99)), Shape::Lengths, "13 at 100 lines"),
    (by_count(|words| is_count(words, 2, 98)), Shape::Walks, "13 at 99 lines"),
    (by_count(|words| is_count(words, 2, 13)), Shape::Sheets, "13 above the lines of a sheet"),
    (by_count(|words| is_count(words, 3, 100)), Shape::Lengths, "13 at 2 lines"),
    (by_count(|words| is_count(words, 2, 101)), Shape::Lengths, "101 lines taken"),
    (by_count(|words| is_count(words, 2, 20_000)), Shape::Lengths, "any number of lines taken"),
    (by_count(|words| is_count(words, 1, 100)), Shape::Lengths, "1 line taken"),
    (by_count(|words| is_count(words, 1, 100)), Shape::Sheets, "1 line taken"),
    (by_count(|words| words == 0 || is_count(words, 2, 100)), Shape::Lengths, "no line taken"),
    (by_count(|words| (12..606).contains(&words)), Shape::Lengths, "a rest of words ignored"),
    (by_count(|words| is_count(words & 0xFF, 2, 100)), Shape::Lengths, "words counted in 8 bits"),
    (by_count(|words| is_count(words & 0xFFFF, 2, 100)), Shape::Lengths, "words counted in 16 bits"),
    (by_number(|number| number <= 3), Shape::Lengths, "operation 0 taken"),
    (by_number(|number| (1..=4).contains(&number)), Shape::Lengths, "operation 4 taken"),
    (by_number(|number| (1..=3).contains(&(number & 0xFF))), Shape::Lengths, "an operation's low byte"),
    (by_order(count_first), Shape::Lengths, "13 before 10"),
    (by_order(lines_first), Shape::Lengths, "14 and 15 before 10 and 13"),
    (by_order(|sheet, rules| before_count(sheet, rules, 14)), Shape::Lengths, "14 before 13"),
    (by_order(|sheet, rules| before_count(sheet, rules, 15)), Shape::Lengths, "15 before 13"),
    (by_order(|sheet, rules| said(sheet, rules, 1, false)), Shape::Lengths, "a line with 10 and 13"),
    (by_order(|sheet, rules| said(sheet, rules, 0, true)), Shape::Lengths, "right with 10 and 13"),
    (by_order(|_, _| Some(Marked::refused(13, 0))), Shape::Walks, "13 to everything"),
];

const fn by_count(counts: fn(usize) -> bool) -> Rules {
    Rules { counts, ..RIGHT }
}

const fn by_number(knows: fn(u32) -> bool) -> Rules {
    Rules { knows, ..RIGHT }
}

const fn by_order(before: fn(&Worksheet, &Rules) -> Option<Marked>) -> Rules {
    Rules { before, ..RIGHT }
}

/// Whole lines, so many at least and so many at most.
fn is_count(words: usize, fewest: usize, most: usize) -> bool {
    words % LINE == 0 && (fewest..=most).contains(&(words / LINE))
}

fn count_first(sheet: &Worksheet, rules: &Rules) -> Option<Marked> {
    rules.uncounted(sheet).or_else(|| rules.unknown(sheet))
}

fn lines_first(sheet: &Worksheet, rules: &Rules) -> Option<Marked> {
    rules.refused(sheet).or_else(|| (RIGHT.before)(sheet, rules))
}

/// This refusal of a line comes before 13.
fn before_count(sheet: &Worksheet, rules: &Rules, refusal: u32) -> Option<Marked> {
    let of_line = || rules.refused(sheet).filter(|marked| marked.refusal == refusal);
    rules.unknown(sheet).or_else(of_line).or_else(|| rules.uncounted(sheet))
}

fn said(sheet: &Worksheet, rules: &Rules, line: u32, right: bool) -> Option<Marked> {
    (RIGHT.before)(sheet, rules).map(|marked| Marked { line, right, ..marked })
}
