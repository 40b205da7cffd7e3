//! The reference for marking, from the words of request 6: what is refused, in its order, and then the pair.
//!
//! Every pattern that an operand may be is kept in a set, with both signs; the lines are followed one by one.
use crate::marks;
use crate::pairs::model::pair;
use crate::pairs::pair::Operation;
use crate::pattern::SIGN;
use crate::sheets::steps;
use crate::step::{Question, Step};
use std::collections::HashSet;

pub use crate::library::Marked;

/// The words of a line: the step's number, three operands, the result and its mark.
pub const LINE: usize = 6;
/// The fewest lines that are marked.
pub const FEWEST: usize = 2;
/// And the most.
pub const MOST: usize = 100;

/// The constants of the step sheet in their order, and -0.
pub const CONSTANTS: [u32; 12] = [
    0x3F7F_FFFF,
    0x4000_0000,
    0xC000_0000,
    0x3F00_0000,
    0x3FFF_FFFF,
    0x4B80_0000,
    0x5780_0000,
    0x3380_0000,
    0x0000_0000,
    0x0000_0001,
    0x8000_0001,
    0x8000_0000,
];

impl Marked {
    pub const RIGHT: Marked = Marked { refusal: 0, line: 0, right: true };
    pub const NOT_RIGHT: Marked = Marked { right: false, ..Marked::RIGHT };

    /// The line is 0 where the refusal is about none.
    pub const fn refused(refusal: u32, line: u32) -> Marked {
        Marked { refusal, line, right: false }
    }

    pub fn shown(self) -> String {
        let Marked { refusal, line, right } = self;
        format!("{refusal} {line} {}", if right { "right" } else { "not right" })
    }
}

pub fn mark(number: u32, x: u32, y: u32, words: &[u32]) -> Marked {
    let operation = match number {
        1 => Operation::Sum,
        2 => Operation::Difference,
        3 => Operation::Product,
        _ => return Marked::refused(10, 0),
    };
    let lines = words.len() / LINE;
    if words.len() % LINE != 0 || !(FEWEST..=MOST).contains(&lines) {
        return Marked::refused(13, 0);
    }
    let mut allowed = Allowed::of(x, y);
    for (i, line) in words.chunks(LINE).enumerate() {
        if let Err(refusal) = allowed.follow(line) {
            return Marked::refused(refusal, i as u32 + 1);
        }
    }
    let results: Vec<u32> = words.chunks(LINE).map(|line| line[4]).collect();
    let claimed = (results[lines - 2], results[lines - 1]);
    Marked { right: claimed == pair(operation, x, y).patterns(), ..Marked::RIGHT }
}

/// What an operand of the next line may be.
struct Allowed(HashSet<u32>);

impl Allowed {
    fn of(x: u32, y: u32) -> Allowed {
        let mut allowed = Allowed(HashSet::with_capacity(256));
        CONSTANTS.into_iter().chain([x, y]).for_each(|pattern| allowed.note(pattern));
        allowed
    }

    fn note(&mut self, pattern: u32) {
        self.0.extend([pattern, pattern ^ SIGN]);
    }

    /// What the line is refused for, 14 before 15; where it is not, its result is one of those from here on.
    fn follow(&mut self, line: &[u32]) -> Result<(), u32> {
        let &[number, x, y, z, result, mark] = line else { unreachable!("a line has six words") };
        let (step, operands, unused) = match number {
            1 => (Step::Add, vec![x, y], Some(z)),
            2 => (Step::Sub, vec![x, y], Some(z)),
            3 => (Step::Mul, vec![x, y], Some(z)),
            4 => (Step::Fma, vec![x, y, z], None),
            _ => return Err(14),
        };
        let has_other = operands.iter().any(|operand| !self.0.contains(operand));
        if has_other || unused.is_some_and(|third| third != 0) {
            return Err(14);
        }
        let q = Question::three(x, y, z);
        if result != steps::answer(step, q).result || mark != marks::mark(step, q) {
            return Err(15);
        }
        self.note(result);
        Ok(())
    }
}
