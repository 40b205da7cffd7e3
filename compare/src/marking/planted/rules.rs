//! A marker of its own, on the library's steps and pairs, by rules each of which can be another.
use super::at::At;
use crate::lists::model::{operation, step_number};
use crate::marking::model::{Marked, LINE};
use crate::marking::worksheet::{Worksheet, THIRD};
use crate::pairs::pair::Operation;
use crate::pairs::subject::{Library as Pairs, Subject as _};
use crate::step::{Answer, Question, Step, STEPS};
use crate::subject::{Library as Steps, Subject as _};
use crate::totals::subject::Lent;
use std::ops::Range;

/// What a marker goes by. A fault has one of these otherwise than RIGHT has it. Lines are counted from 0.
#[derive(Clone, Copy)]
pub struct Rules {
    /// Whether it is the number of an operation.
    pub knows: fn(u32) -> bool,
    /// Whether so many words may be handed in.
    pub counts: fn(usize) -> bool,
    /// What is said before any line is looked at.
    pub before: fn(&Worksheet, &Rules) -> Option<Marked>,
    /// The step of a number.
    pub step: fn(u32) -> Option<Step>,
    /// The lines whose results an operand of a line may be.
    pub results: fn(usize) -> Range<usize>,
    /// Whether an operand may be a pattern.
    pub allows: fn(&At, u32) -> bool,
    /// Whether the operand in a place, from 0, is looked at.
    pub looks: fn(Step, usize) -> bool,
    /// Whether a word may stand for a third operand that the step has not.
    pub idle: fn(&At, Step, u32) -> bool,
    /// What a step comes to.
    pub answer: fn(Step, Question) -> Answer,
    /// Whether what a line has is what its step comes to.
    pub agrees: fn(Answer, Answer) -> bool,
    /// Why the lines are refused, and which of them that is about, by what each of them meets.
    pub told: fn(&[Met]) -> Option<Marked>,
    /// Whether lines that are not refused come to the pair.
    pub right: fn(&Worksheet) -> bool,
    /// What is written to the words.
    pub writes: fn(&mut Lent, Marked),
}

pub const RIGHT: Rules = Rules {
    knows: |number| operation(number).is_some(),
    counts: |words| words % LINE == 0 && (2..=100).contains(&(words / LINE)),
    before: |sheet, rules| rules.unknown(sheet).or_else(|| rules.uncounted(sheet)),
    step: |number| STEPS.into_iter().find(|&step| step_number(step) == number),
    results: |line| 0..line,
    allows: |at, pattern| at.is_given(pattern) || at.is_result(pattern),
    looks: |_, _| true,
    idle: |_, _, word| word == 0,
    answer: |step, q| Steps.answer(step, q),
    agrees: |given, right| given == right,
    told: |met| met.iter().enumerate().find_map(|(line, met)| met.told(line)),
    right: |sheet| claimed(sheet) == Some(pair(sheet)),
    writes: |_, _| {},
};

/// What a line meets: 14 by its step, its operands or an idle third, 15 by its result or its mark.
#[derive(Clone, Copy, Default)]
pub struct Met {
    pub step: bool,
    pub operand: bool,
    pub idle: bool,
    pub result: bool,
    pub mark: bool,
}

impl Met {
    pub fn is_foreign(self) -> bool {
        self.step || self.operand || self.idle
    }

    pub fn is_false(self) -> bool {
        self.result || self.mark
    }

    pub fn told(self, line: usize) -> Option<Marked> {
        let refusal = if self.is_foreign() { Some(14) } else { self.is_false().then_some(15) };
        refusal.map(|refusal| about(refusal, line))
    }
}

/// A refusal for a line.
pub fn about(refusal: u32, line: usize) -> Marked {
    Marked::refused(refusal, line as u32 + 1)
}

impl Rules {
    pub fn mark(&self, sheet: &Worksheet) -> Marked {
        (self.before)(sheet, self)
            .or_else(|| self.refused(sheet))
            .unwrap_or_else(|| Marked { right: (self.right)(sheet), ..Marked::RIGHT })
    }

    /// 10.
    pub fn unknown(&self, sheet: &Worksheet) -> Option<Marked> {
        (!(self.knows)(sheet.operation)).then_some(Marked::refused(10, 0))
    }

    /// 13.
    pub fn uncounted(&self, sheet: &Worksheet) -> Option<Marked> {
        (!(self.counts)(sheet.words.len())).then_some(Marked::refused(13, 0))
    }

    /// 14 or 15. What is left over behind whole lines is not looked at.
    pub fn refused(&self, sheet: &Worksheet) -> Option<Marked> {
        let met: Vec<Met> = (0..sheet.words.len() / LINE).map(|line| self.met(sheet, line)).collect();
        (self.told)(&met)
    }

    fn met(&self, sheet: &Worksheet, line: usize) -> Met {
        let at = At { sheet, line, results: (self.results)(line) };
        let words = sheet.line(line);
        let &[number, x, y, z, result, mark] = words else { unreachable!("a line has six words") };
        let Some(step) = (self.step)(number) else {
            return Met { step: true, ..Met::default() };
        };
        let operands = if step == Step::Fma { 3 } else { 2 };
        let is_foreign = |i: usize| (self.looks)(step, i) && !(self.allows)(&at, words[i + 1]);
        let right = (self.answer)(step, Question { x, y, z });
        Met {
            step: false,
            operand: (0..operands).any(is_foreign),
            idle: step != Step::Fma && !(self.idle)(&at, step, words[THIRD]),
            result: !(self.agrees)(Answer { result, ..right }, right),
            mark: !(self.agrees)(Answer { mark, ..right }, right),
        }
    }
}

/// The last two results, where there are so many.
pub fn claimed(sheet: &Worksheet) -> Option<(u32, u32)> {
    let mut results = sheet.results().rev();
    let second = results.next()?;
    Some((results.next()?, second))
}

/// Of a number that is no operation's, the sum.
pub fn pair(sheet: &Worksheet) -> (u32, u32) {
    pair_by(operation(sheet.operation).unwrap_or(Operation::Sum), sheet)
}

pub fn pair_by(operation: Operation, sheet: &Worksheet) -> (u32, u32) {
    Pairs.pair(operation, sheet.x, sheet.y).patterns()
}
