//! A question line of the input, as R8.3 and R8.4 have it.
use crate::pairs::pair::{Operation, OPERATIONS};

/// The bytes that a question line has.
pub const LENGTH: usize = 21;

#[derive(Clone, Copy, PartialEq, Eq, Debug)]
pub struct Asked {
    pub operation: Operation,
    pub x: u32,
    pub y: u32,
}

impl Asked {
    pub fn new(operation: Operation, x: u32, y: u32) -> Asked {
        Asked { operation, x, y }
    }

    /// The question as a line has it.
    pub fn shown(self) -> String {
        format!("{}\t{:08X}\t{:08X}", self.operation.name(), self.x, self.y)
    }
}

/// The question, or the number of the first condition that the line meets, in R8.4's order.
pub fn read(line: &[u8]) -> Result<Asked, u32> {
    if line.len() != LENGTH {
        return Err(1);
    }
    let named = |operation: &Operation| operation.name().as_bytes() == &line[..3];
    let operation = OPERATIONS.into_iter().find(named).ok_or(2u32)?;
    if line[3] != b'\t' || line[12] != b'\t' {
        return Err(3);
    }
    let (x, y) = (pattern(&line[4..12]), pattern(&line[13..]));
    match (x, y) {
        (Some(x), Some(y)) => Ok(Asked { operation, x, y }),
        _ => Err(4),
    }
}

fn pattern(digits: &[u8]) -> Option<u32> {
    digits.iter().try_fold(0, |value, &byte| Some(value << 4 | digit(byte)?))
}

fn digit(byte: u8) -> Option<u32> {
    match byte {
        b'0'..=b'9' => Some(u32::from(byte - b'0')),
        b'A'..=b'F' => Some(u32::from(byte - b'A') + 10),
        _ => None,
    }
}
