//! Lines that are true, one after the other: what worksheets are made of.
use super::model::{Marked, CONSTANTS, LINE};
use super::worksheet::{Line, Worksheet, RESULT};
use crate::lists::model::step_number;
use crate::pairs::pair::Operation;
use crate::pattern::{is_finite, magnitude, SIGN};
use crate::random::Random;
use crate::sheets::line::Asked;
use crate::sheets::sheet::sheet;
use crate::sheets::steps;
use crate::step::{Answer, Question, Step, STEPS};

/// A question, and true lines for it.
pub struct Way {
    pub asked: Asked,
    pub lines: Vec<Line>,
}

/// The line of a step, with its own result and mark.
pub fn true_line(step: Step, q: Question) -> Line {
    let [x, y, z] = q.operands(step);
    let Answer { result, mark } = steps::answer(step, Question { x, y, z });
    [step_number(step), x, y, z, result, mark]
}

impl Way {
    pub fn of(asked: Asked) -> Way {
        Way { asked, lines: Vec::new() }
    }

    /// A line more; its result.
    pub fn line(&mut self, step: Step, q: Question) -> u32 {
        let line = true_line(step, q);
        self.lines.push(line);
        line[RESULT]
    }

    /// 80000000 added: the pattern itself, unless it is a signalling NaN.
    pub fn take(&mut self, pattern: u32) {
        self.line(Step::Add, Question::two(pattern, SIGN));
    }

    /// Both halves of what is claimed.
    pub fn claim(&mut self, first: u32, second: u32) {
        self.take(first);
        self.take(second);
    }

    /// The model sheet's lines; its first and second.
    pub fn sheet(&mut self) -> (u32, u32) {
        self.sheet_of(self.asked.operation)
    }

    /// The lines of the sheet that another operation has on the same operands.
    pub fn sheet_of(&mut self, operation: Operation) -> (u32, u32) {
        let sheet = sheet(operation, self.asked.x, self.asked.y);
        for line in &sheet.lines {
            let [x, y, z] = line.operands.operands(line.step);
            self.lines.push([step_number(line.step), x, y, z, line.result, line.mark]);
        }
        (sheet.first, sheet.second)
    }

    /// So many lines of any steps on any operands that are allowed.
    pub fn walk(&mut self, lines: i32, r: &mut Random) {
        for _ in 0..lines {
            let step = STEPS[r.within(0, 3) as usize];
            let [x, y, z] = [0; 3].map(|_| self.operand(r));
            self.line(step, Question::three(x, y, z));
        }
    }

    /// One that is allowed in the next line, half of them results.
    pub fn operand(&self, r: &mut Random) -> u32 {
        let pattern = match r.within(0, 7) {
            0 => self.asked.x,
            1 => self.asked.y,
            2 | 3 => CONSTANTS[r.within(0, CONSTANTS.len() as i32 - 1) as usize],
            _ => self.a_result(r).unwrap_or(self.asked.x),
        };
        pattern ^ r.sign() << 31
    }

    /// The first, the last, or any. One that is not finite is mostly passed over: soon all would be NaN.
    fn a_result(&self, r: &mut Random) -> Option<u32> {
        let last = self.lines.len().checked_sub(1)?;
        let drawn = |r: &mut Random| match r.within(0, 5) {
            0 => 0,
            1 => last,
            _ => r.within(0, last as i32) as usize,
        };
        let results = [0; 3].map(|_| self.lines[drawn(r)][RESULT]);
        Some(results.into_iter().find(|&result| is_finite(result)).unwrap_or(results[0]))
    }

    /// Whether an operand of the line of this number may be the pattern.
    pub fn knows(&self, line: usize, pattern: u32) -> bool {
        let asked = [self.asked.x, self.asked.y];
        let results = self.lines[..line].iter().map(|line| line[RESULT]);
        let mut all = asked.into_iter().chain(CONSTANTS).chain(results);
        all.any(|known| magnitude(known) == magnitude(pattern))
    }

    pub fn handed_in(&self, made: Option<Marked>) -> Worksheet {
        let Asked { operation, x, y } = self.asked;
        let mut words = Vec::with_capacity(self.lines.len() * LINE);
        self.lines.iter().for_each(|line| words.extend(line));
        Worksheet { operation: operation as u32 + 1, x, y, words, made }
    }
}
