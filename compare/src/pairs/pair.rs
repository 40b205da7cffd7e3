//! The three operations, and a pair with its flags as the library hands it over.
pub use crate::library::{Flags, Pair};

#[derive(Clone, Copy, PartialEq, Eq, Debug)]
pub enum Operation {
    Sum,
    Difference,
    Product,
}

pub const OPERATIONS: [Operation; 3] = [Operation::Sum, Operation::Difference, Operation::Product];

impl Operation {
    pub fn name(self) -> &'static str {
        match self {
            Operation::Sum => "sum",
            Operation::Difference => "dif",
            Operation::Product => "mul",
        }
    }
}

impl Flags {
    pub const NONE: Flags = Flags { invalid: false, overflow: false, underflow: false, inexact: false };
    pub const I: Flags = Flags { invalid: true, ..Flags::NONE };
    pub const OX: Flags = Flags { overflow: true, inexact: true, ..Flags::NONE };
    pub const UX: Flags = Flags { underflow: true, inexact: true, ..Flags::NONE };

    /// As R4.1 writes them.
    pub fn shown(self) -> String {
        let letters = [(self.invalid, 'I'), (self.overflow, 'O'), (self.underflow, 'U'), (self.inexact, 'X')];
        if self == Flags::NONE {
            return "-".to_string();
        }
        letters.into_iter().filter(|l| l.0).map(|l| l.1).collect()
    }
}

impl Pair {
    pub fn twice(pattern: u32, flags: Flags) -> Pair {
        Pair { first: pattern, second: pattern, flags }
    }

    /// The two numbers without the flags.
    pub fn patterns(self) -> (u32, u32) {
        (self.first, self.second)
    }

    /// The fields, with `between` between them.
    pub fn shown(self, between: &str) -> String {
        format!("{:08X}{between}{:08X}{between}{}", self.first, self.second, self.flags.shown())
    }
}
