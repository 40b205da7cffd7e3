//! Lists of questions whose terms are all -0, and such with another zero or a number among them.
use super::events::{enough, question, too_few, with_calls, Event};
use super::model::WORDS;
use super::subject::Question;
use crate::pattern::{power, INFINITY, LARGEST, SIGN};
use crate::random::Random;

/// The fewest words of which a sheet is made.
const LEAST: u32 = WORDS as u32;

/// Of -0 alone; with one question of another zero, at the beginning, at the end and anywhere; of zeros of any sign; of -0 and numbers
/// that cancel; and such as lead to nothing. All in turn.
pub fn list(number: u64, r: &mut Random) -> Vec<Event> {
    let count = r.within(1, 60);
    let mut events: Vec<Event> = (0..count).map(|_| with_calls(often_minus, r)).collect();
    match number % 7 {
        0 => {}
        1 => events.insert(0, Event::Ask(plus(r))),
        2 => events.push(Event::Ask(plus(r))),
        3 => events.insert(r.within(0, count) as usize, Event::Ask(plus(r))),
        4 => events
            .extend((0..count).map(|_| with_calls(|r| if r.once_in(2) { plus(r) } else { minus(r) }, r))),
        5 => {
            let at = r.within(0, count) as usize;
            let one = Question { operation: 1, x: power(0), y: 0, lent: LEAST };
            events.insert(at, Event::Ask(one));
            events.push(Event::Ask(Question { x: SIGN | one.x, y: SIGN, ..one }));
        }
        _ => events = (0..count).map(|_| with_calls(nothing, r)).collect(),
    }
    events
}

/// A question of -0, with those that enter nothing between.
fn often_minus(r: &mut Random) -> Question {
    if r.once_in(4) {
        nothing(r)
    } else {
        minus(r)
    }
}

/// The sum of -0 and -0, the difference of -0 and +0, or a product of a zero whose signs differ.
pub fn minus(r: &mut Random) -> Question {
    let lent = enough(r);
    match r.within(1, 3) as u32 {
        3 => Question { lent, ..product(SIGN, r) },
        operation => Question { operation, x: SIGN, y: if operation == 1 { SIGN } else { 0 }, lent },
    }
}

/// Zeros that are not all -0: +0 among two addends, or a product whose signs are alike.
fn plus(r: &mut Random) -> Question {
    let lent = enough(r);
    match r.within(1, 3) as u32 {
        3 => Question { lent, ..product(0, r) },
        operation => {
            let flipped = if operation == 1 { 0 } else { SIGN };
            let (x, y) = [(0, 0), (0, SIGN), (SIGN, 0)][r.within(0, 2) as usize];
            Question { operation, x, y: y ^ flipped, lent }
        }
    }
}

/// Of a zero and a number, or another zero; of this sign.
fn product(sign: u32, r: &mut Random) -> Question {
    let numbers = [0, 1, power(-126), power(0), power(0) + 1, LARGEST];
    let x = r.sign() << 31;
    let y = numbers[r.within(0, numbers.len() as i32 - 1) as usize] | (x ^ sign) & SIGN;
    let (x, y) = if r.once_in(2) { (x, y) } else { (y, x) };
    Question { operation: 3, x, y, lent: LEAST }
}

/// Zeros that are refused, products that are not exact, though some round to -0, and what is not finite.
fn nothing(r: &mut Random) -> Question {
    match r.within(0, 3) {
        0 => Question { lent: too_few(r), ..plus(r) },
        1 => question(r.within(4, 5) as u32, LEAST, r),
        2 => Question { operation: 3, x: r.sign() << 31 | 1, y: power(r.within(-3, -1)), lent: LEAST },
        _ => Question { operation: r.within(1, 3) as u32, x: INFINITY, y: r.sign() << 31, lent: LEAST },
    }
}
