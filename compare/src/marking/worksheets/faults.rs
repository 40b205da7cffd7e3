//! True lines with one between them that is to be refused, or with two. The others do not stand on it.
use super::one_of;
use crate::marking::model::{Marked, CONSTANTS, MOST};
use crate::marking::way::{true_line, Way};
use crate::marking::worksheet::{Line, Worksheet, MARK, RESULT, THIRD};
use crate::pattern::{is_signalling, INFINITY, NAN, SIGN};
use crate::random::Random;
use crate::sheets::files::drawn;
use crate::special;
use crate::step::{Question, Step, STEPS};

/// A line that is to be refused, among those of a way before that of this number.
type Fault = fn(&Way, usize, &mut Random) -> Line;

const FOREIGN: [Fault; 6] = [stranger, stranger, later, own, third, number];
const FALSE: [Fault; 3] = [result, mark, of_another_step];

pub fn worksheet(r: &mut Random) -> Worksheet {
    let way = way(r);
    let lines = way.lines.len();
    let (one, other) = (r.within(0, lines as i32) as usize, r.within(0, lines as i32) as usize);
    let (low, high) = (one.min(other), one.max(other));
    let foreign = one_of(&FOREIGN, r)(&way, low, r);
    let wrong = one_of(&FALSE, r)(&way, low, r);
    let mut sheet = way.handed_in(None);
    let refusal = match r.within(0, 4) {
        0 => refused(&mut sheet, low, foreign, 14),
        1 => refused(&mut sheet, low, wrong, 15),
        2 => refused(&mut sheet, low, both(foreign, r), 14),
        // From the last one on, so that the numbers of the lines before stay.
        3 => {
            sheet.insert(high, one_of(&FOREIGN, r)(&way, high, r));
            refused(&mut sheet, low, wrong, 15)
        }
        _ => {
            sheet.insert(high, one_of(&FALSE, r)(&way, high, r));
            refused(&mut sheet, low, foreign, 14)
        }
    };
    Worksheet { made: Some(refusal), ..sheet }
}

fn refused(sheet: &mut Worksheet, at: usize, line: Line, refusal: u32) -> Marked {
    sheet.insert(at, line);
    Marked::refused(refusal, at as u32 + 1)
}

/// Up to two lines less than the most; half of them come to the pair.
fn way(r: &mut Random) -> Way {
    let mut way = Way::of(drawn::question(r));
    let most = if r.once_in(4) { MOST as i32 - 17 } else { 12 };
    if r.once_in(2) {
        way.walk(r.within(2, most), r);
        return way;
    }
    let (first, second) = way.sheet();
    way.walk(r.within(0, most), r);
    way.claim(first, second);
    way
}

/// A true line of what is known before that of this number.
fn plain(way: &Way, at: usize, r: &mut Random) -> (Step, [u32; 3]) {
    let before = Way { asked: way.asked, lines: way.lines[..at].to_vec() };
    (one_of(&STEPS, r), [0; 3].map(|_| before.operand(r)))
}

fn line(step: Step, [x, y, z]: [u32; 3]) -> Line {
    true_line(step, Question { x, y, z })
}

/// With this pattern for one of its operands.
fn with(way: &Way, at: usize, pattern: u32, r: &mut Random) -> Line {
    let (step, mut operands) = plain(way, at, r);
    operands[r.within(0, if step == Step::Fma { 2 } else { 1 }) as usize] = pattern;
    line(step, operands)
}

/// An operand that comes from nowhere.
fn stranger(way: &Way, at: usize, r: &mut Random) -> Line {
    loop {
        let pattern = unheard_of(way, r);
        if !way.knows(at, pattern) {
            return with(way, at, pattern, r);
        }
    }
}

/// Any pattern, one a bit beside what is allowed, what is claimed, a mark, what might be a constant and is none.
fn unheard_of(way: &Way, r: &mut Random) -> u32 {
    let asked = [way.asked.x, way.asked.y];
    let might_be = [0x3F80_0000, 0x4000_0001, 0x3F80_0001, 0x2780_0000, INFINITY, NAN, 0x0080_0000];
    match r.within(0, 7) {
        0 => r.pattern(),
        1 => special::pattern(r),
        2 => one_of(&CONSTANTS, r) ^ 1 << r.within(0, 30),
        3 => one_of(&asked, r) ^ 1 << r.within(0, 30),
        4 => way.lines[r.within(0, way.lines.len() as i32 - 1) as usize][RESULT] ^ 1 << r.within(0, 30),
        5 => way.lines[way.lines.len() - 1 - r.within(0, 1) as usize][RESULT],
        6 => 2,
        _ => one_of(&might_be, r) ^ r.sign() << 31,
    }
}

/// An operand that is the result of a line behind it, and of none before.
fn later(way: &Way, at: usize, r: &mut Random) -> Line {
    let behind = way.lines[at..].iter().map(|line| line[RESULT]);
    let unknown: Vec<u32> = behind.filter(|&result| !way.knows(at, result)).collect();
    if unknown.is_empty() {
        return stranger(way, at, r);
    }
    let pattern = one_of(&unknown, r) ^ r.sign() << 31;
    with(way, at, pattern, r)
}

/// An operand that is the line's own result, and no other's: nothing is added to it.
fn own(way: &Way, at: usize, r: &mut Random) -> Line {
    loop {
        let pattern = if r.once_in(4) { unheard_of(way, r) } else { r.pattern() };
        if !way.knows(at, pattern) && !is_signalling(pattern) {
            return match r.within(0, 2) {
                0 => line(Step::Add, [SIGN, pattern, 0]),
                1 => line(Step::Sub, [pattern, 0, 0]),
                _ => line(Step::Add, [pattern, SIGN, 0]),
            };
        }
    }
}

/// Something stands in the place of an unused third operand.
fn third(way: &Way, at: usize, r: &mut Random) -> Line {
    let (_, operands) = plain(way, at, r);
    let mut line = line(one_of(&[Step::Add, Step::Sub, Step::Mul], r), operands);
    line[THIRD] = one_of(&[1, SIGN, way.asked.x, operands[0], operands[2], line[RESULT], u32::MAX], r);
    if line[THIRD] == 0 {
        line[THIRD] = SIGN;
    }
    line
}

/// A step that is none.
fn number(way: &Way, at: usize, r: &mut Random) -> Line {
    let (step, operands) = plain(way, at, r);
    let mut line = line(step, operands);
    line[0] = match r.within(0, 3) {
        0 => 0,
        1 => 5,
        2 => line[0] | 1 << r.within(3, 31),
        _ => u32::MAX,
    };
    line
}

/// Another result: one bit or the sign, a unit more, another NaN.
fn result(way: &Way, at: usize, r: &mut Random) -> Line {
    let (step, operands) = plain(way, at, r);
    let mut line = line(step, operands);
    let right = line[RESULT];
    line[RESULT] = match r.within(0, 3) {
        0 => right ^ 1 << r.within(0, 31),
        1 => right ^ SIGN,
        2 => right.wrapping_add(1),
        _ => special::pattern(r),
    };
    if line[RESULT] == right {
        line[RESULT] ^= 1;
    }
    line
}

/// Another mark.
fn mark(way: &Way, at: usize, r: &mut Random) -> Line {
    let (step, operands) = plain(way, at, r);
    let mut line = line(step, operands);
    let right = line[MARK];
    line[MARK] = one_of(&[0, 1, 2, 3, right | 0x100, right | SIGN, u32::MAX], r);
    if line[MARK] == right {
        line[MARK] ^= 1;
    }
    line
}

/// The result and mark of another step on the operands; where they are alike, another result.
fn of_another_step(way: &Way, at: usize, r: &mut Random) -> Line {
    let (step, operands) = plain(way, at, r);
    let (mut line, other) = (line(step, operands), line(one_of(&STEPS, r), operands));
    if line[RESULT..] == other[RESULT..] {
        return result(way, at, r);
    }
    line[RESULT..].copy_from_slice(&other[RESULT..]);
    line
}

/// The result or the mark of a line that is refused already is false, too.
fn both(mut line: Line, r: &mut Random) -> Line {
    line[one_of(&[RESULT, MARK], r)] ^= 1;
    line
}
