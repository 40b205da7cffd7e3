//! The reference for filling a sheet: the model sheet's lines as words, and the refusals.
pub use crate::library::Filled;
use crate::pairs::pair::{Flags, Operation, OPERATIONS};
use crate::sheets::sheet::{sheet, LINES};
use crate::step::Step;

/// The words of a line.
pub const LINE: usize = 6;

/// The words that a sheet takes: 13 lines of six.
pub const WORDS: usize = LINE * LINES;

/// What it took before its lines had marks.
pub const UNMARKED: usize = WORDS - LINES;

impl Filled {
    pub const fn refused(refusal: u32) -> Filled {
        Filled { refusal, lines: 0, first: 0, second: 0, flags: Flags::NONE }
    }

    pub fn shown(self) -> String {
        let Filled { refusal, lines, first, second, flags } = self;
        format!("{refusal} {lines} {first:08X} {second:08X} {}", flags.shown())
    }
}

/// 1 sum, 2 difference, 3 product.
pub fn operation(number: u32) -> Option<Operation> {
    (number as usize).checked_sub(1).and_then(|i| OPERATIONS.get(i).copied())
}

/// The answer; where it is not refused, the words are what it leaves in them.
pub fn fill(number: u32, x: u32, y: u32, words: &mut [u32]) -> Filled {
    let Some(operation) = operation(number) else { return Filled::refused(10) };
    if words.len() < WORDS {
        return Filled::refused(9);
    }
    let sheet = sheet(operation, x, y);
    words[..WORDS].fill(0);
    for (line, room) in sheet.lines.iter().zip(words.chunks_mut(LINE)) {
        let q = line.operands;
        room.copy_from_slice(&[step_number(line.step), q.x, q.y, q.z, line.result, line.mark]);
    }
    let lines = sheet.lines.len() as u32;
    Filled { refusal: 0, lines, first: sheet.first, second: sheet.second, flags: sheet.flags }
}

pub fn step_number(step: Step) -> u32 {
    match step {
        Step::Add => 1,
        Step::Sub => 2,
        Step::Mul => 3,
        Step::Fma => 4,
    }
}
