//! Lists of events: questions, and between them readings and adding calls that are refused.
use super::model::{UNMARKED, WORDS};
use super::subject::Question;
use super::zeros;
use crate::pairs::pair::Operation;
use crate::pairs::questions::{self, shapes};
use crate::pattern::{power, INFINITY, LARGEST, NAN, SIGN};
use crate::random::Random;
use crate::totals::call::Call;

#[derive(Clone, Copy, PartialEq, Eq, Debug)]
pub enum Event {
    Ask(Question),
    /// A call on the first total or on the second: a reading, or an adding call that is to be refused.
    Call(usize, Call),
}

impl Event {
    pub fn shown(self) -> String {
        match self {
            Event::Ask(question) => question.shown(),
            Event::Call(total, call) => format!("{} on total {}", call.shown(), total + 1),
        }
    }
}

#[derive(Clone, Copy, PartialEq, Eq, Debug)]
pub enum Shape {
    /// Any events.
    Random,
    /// Questions that are refused, nearly all.
    Refused,
    /// Questions and their opposites.
    Cancelling,
    /// Products of about 2^-149, most of which do not add up.
    Tiny,
    /// 32,768 questions, most of which enter, and calls on full totals.
    Long,
    /// Questions whose terms are all -0, and such with another zero among them.
    Zeros,
}

pub const SHAPES: [Shape; 6] =
    [Shape::Random, Shape::Refused, Shape::Cancelling, Shape::Tiny, Shape::Long, Shape::Zeros];

/// The most questions of a list.
pub const MOST: usize = 32_768;

impl Shape {
    pub fn name(self) -> &'static str {
        match self {
            Shape::Random => "random",
            Shape::Refused => "refused",
            Shape::Cancelling => "cancelling",
            Shape::Tiny => "tiny",
            Shape::Long => "long",
            Shape::Zeros => "zeros",
        }
    }

    /// Long lists are few.
    pub fn lists(self, random: u64) -> u64 {
        match self {
            Shape::Long => LONG,
            _ => random,
        }
    }

    pub fn list(self, seed: u64, number: u64) -> Vec<Event> {
        let mut r = Random::stream(seed, &[600 + self as u64, number]);
        match self {
            Shape::Random => (0..r.within(1, 120)).map(|_| event(&mut r)).collect(),
            Shape::Refused => (0..r.within(1, 120)).map(|_| often_refused(&mut r)).collect(),
            Shape::Cancelling => cancelling(&mut r),
            Shape::Tiny => (0..r.within(1, 120)).map(|_| tiny(&mut r)).collect(),
            Shape::Long => long(number, &mut r),
            Shape::Zeros => zeros::list(number, &mut r),
        }
    }
}

/// A question of the pairs' shapes.
pub fn asked(operation: Operation, r: &mut Random) -> (u32, u32) {
    let shapes = shapes(operation);
    let shape = shapes[r.within(0, shapes.len() as i32 - 1) as usize];
    let q = questions::question(operation, shape, r);
    (q.x, q.y)
}

/// The patterns are those of an operation, whatever the number is.
pub fn question(operation: u32, lent: u32, r: &mut Random) -> Question {
    let named = super::model::operation(operation).unwrap_or(Operation::Sum);
    let (x, y) = asked(named, r);
    Question { operation, x, y, lent }
}

/// As many words as a question of a list lends at most.
pub const LENT: u32 = 90;

/// Words of which a sheet can be made, as few as that or more.
pub fn enough(r: &mut Random) -> u32 {
    r.within(WORDS as i32, LENT as i32) as u32
}

/// Words that are too few, often as many as were enough before.
pub fn too_few(r: &mut Random) -> u32 {
    let least = if r.once_in(2) { UNMARKED } else { 0 };
    r.within(least as i32, WORDS as i32 - 1) as u32
}

/// Either of the two.
fn any_count(r: &mut Random) -> u32 {
    r.within(0, LENT as i32) as u32
}

fn valid(r: &mut Random) -> Question {
    let (operation, lent) = (r.within(1, 3) as u32, enough(r));
    question(operation, lent, r)
}

/// Numbers from 0 to 5 and 0 to 90 words, either of them good more often than not.
fn any(r: &mut Random) -> Question {
    let operation = if r.once_in(3) { r.within(0, 5) } else { r.within(1, 3) };
    let lent = if r.once_in(3) { any_count(r) } else { enough(r) };
    question(operation as u32, lent, r)
}

fn event(r: &mut Random) -> Event {
    with_calls(any, r)
}

/// A question, or now and then a reading of a total, or a term that is refused.
pub fn with_calls(question: impl Fn(&mut Random) -> Question, r: &mut Random) -> Event {
    match r.within(0, 9) {
        0 => Event::Call(r.within(0, 1) as usize, Call::Read),
        1 => Event::Call(r.within(0, 1) as usize, refused(r)),
        _ => Event::Ask(question(r)),
    }
}

/// With an infinite or NaN operand: 7.
fn refused(r: &mut Random) -> Call {
    let bad = [INFINITY, SIGN | INFINITY, NAN, SIGN | NAN, INFINITY + 1][r.within(0, 4) as usize];
    let other = [0, SIGN, 1, power(0), LARGEST, bad][r.within(0, 5) as usize];
    match r.within(0, 2) {
        0 => Call::Pattern(bad),
        1 => Call::Product(bad, other),
        _ => Call::Product(other, bad),
    }
}

fn often_refused(r: &mut Random) -> Event {
    let (operation, lent) = match r.within(0, 5) {
        0 => (r.within(1, 3), enough(r)),
        1 => (r.within(4, 5), any_count(r)),
        2 => (0, any_count(r)),
        3 => (-1, r.within(WORDS as i32 - 2, WORDS as i32 + 1) as u32),
        _ => (r.within(1, 3), too_few(r)),
    };
    Event::Ask(question(operation as u32, lent, r))
}

fn cancelling(r: &mut Random) -> Vec<Event> {
    let mut events = Vec::new();
    for _ in 0..r.within(1, 40) {
        let q = valid(r);
        let turned = if q.operation == 3 { q.y } else { q.y ^ SIGN };
        events.extend([q, Question { x: q.x ^ SIGN, y: turned, ..q }].map(Event::Ask));
    }
    for last in (1..events.len()).rev() {
        events.swap(last, r.within(0, last as i32) as usize);
    }
    events
}

fn tiny(r: &mut Random) -> Event {
    let (x, y) = (r.within(1, 9) as u32, power(r.within(-3, 1)) | (r.bits(2) as u32) << 21);
    let operation = if r.once_in(6) { r.within(1, 2) } else { 3 };
    Event::Ask(Question { operation: operation as u32, x: x | r.sign() << 31, y, lent: WORDS as u32 })
}

/// Sums alone, which fill both totals; products alone; the largest of either; any, with calls between; -0 alone.
const LONG: u64 = 6;

fn long(number: u64, r: &mut Random) -> Vec<Event> {
    let large = |r: &mut Random| LARGEST ^ r.bits(22) as u32 ^ r.sign() << 31;
    let asked = |operation: u32, x: u32, y: u32| Question { operation, x, y, lent: WORDS as u32 };
    let one = |r: &mut Random| match number {
        0 => asked(1, r.pattern() & 0xBFFF_FFFF, r.pattern() & 0xBFFF_FFFF),
        1 => asked(2, power(126), SIGN | power(126) | r.bits(23) as u32),
        2 => asked(3, large(r), power(0) ^ r.sign() << 31),
        3 => asked(3, r.pattern() & 0xBFFF_FFFF | 0x2000_0000, power(0) | r.bits(23) as u32),
        4 => any(r),
        _ => zeros::minus(r),
    };
    let mut events = Vec::new();
    for _ in 0..MOST {
        events.push(Event::Ask(one(r)));
        if r.once_in(50) {
            let call = if r.once_in(2) { Call::Read } else { refused(r) };
            events.push(Event::Call(r.within(0, 1) as usize, call));
        }
    }
    // Where a total is full these are refused by 8; where it is not, they are left out when the list is run.
    for total in 0..2 {
        let adding = [Call::Pattern(0), Call::Product(LARGEST, 1), Call::Pattern(NAN)];
        events.extend(adding.into_iter().chain([Call::Read]).map(|call| Event::Call(total, call)));
    }
    events
}
