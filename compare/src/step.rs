//! The four steps, what is asked of them, and what they answer.
use crate::pattern::{is_finite, is_nan};

/// A result and its mark.
pub use crate::library::Step as Answer;

#[derive(Clone, Copy, PartialEq, Eq, Debug)]
pub enum Step {
    Add,
    Sub,
    Mul,
    Fma,
}

pub const STEPS: [Step; 4] = [Step::Add, Step::Sub, Step::Mul, Step::Fma];

impl Step {
    pub fn name(self) -> &'static str {
        match self {
            Step::Add => "add",
            Step::Sub => "sub",
            Step::Mul => "mul",
            Step::Fma => "fma",
        }
    }
}

/// Patterns of the operands. `z` is used by fma only, and is 0 for the others.
#[derive(Clone, Copy, PartialEq, Eq, Debug)]
pub struct Question {
    pub x: u32,
    pub y: u32,
    pub z: u32,
}

impl Question {
    pub fn two(x: u32, y: u32) -> Question {
        Question { x, y, z: 0 }
    }

    pub fn three(x: u32, y: u32, z: u32) -> Question {
        Question { x, y, z }
    }

    /// The operands of `step`: what stands in the place of an unused one is none, and 0 stands for it here.
    pub fn operands(self, step: Step) -> [u32; 3] {
        [self.x, self.y, if step == Step::Fma { self.z } else { 0 }]
    }

    /// Whether every operand of `step` is.
    pub fn is_finite(self, step: Step) -> bool {
        self.operands(step).into_iter().all(is_finite)
    }

    /// Whether an operand of `step` is NaN.
    pub fn has_nan(self, step: Step) -> bool {
        self.operands(step).into_iter().any(is_nan)
    }

    /// The operands of `step`, as hexadecimal patterns.
    pub fn shown(self, step: Step) -> String {
        match step {
            Step::Fma => format!("{:08X} {:08X} {:08X}", self.x, self.y, self.z),
            _ => format!("{:08X} {:08X}", self.x, self.y),
        }
    }
}

impl Answer {
    pub fn shown(self, between: &str) -> String {
        format!("{:08X}{between}{}", self.result, self.mark)
    }
}
