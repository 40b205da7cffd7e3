//! Marking on the processor's floats, in plain Rust: the measure that the library's is held to.
use super::model::{Marked, CONSTANTS, LINE, MOST};
use crate::pairs::algorithms;
use crate::pairs::pair::OPERATIONS;
use crate::pattern::{magnitude, SIGN};
use crate::processor::Processor;
use crate::sheets::peer::floats::{is_sum, mark, result, wide};

pub type Marker = unsafe fn(u32, u32, u32, &[u32]) -> Marked;

/// With the fma instruction where the processor has it.
pub fn marker(processor: Processor) -> Marker {
    if processor.fused_instruction {
        by_instruction
    } else {
        by_call
    }
}

/// # Safety
/// The processor has the feature `fma`.
#[inline(never)]
#[target_feature(enable = "fma")]
unsafe fn by_instruction(operation: u32, x: u32, y: u32, words: &[u32]) -> Marked {
    marked(Processor { fused_instruction: true }, operation, x, y, words)
}

#[inline(never)]
fn by_call(operation: u32, x: u32, y: u32, words: &[u32]) -> Marked {
    marked(Processor { fused_instruction: false }, operation, x, y, words)
}

/// Inlined, so that the floats within have the caller's instructions.
#[inline(always)]
fn marked(processor: Processor, number: u32, x: u32, y: u32, words: &[u32]) -> Marked {
    let Some(&operation) = OPERATIONS.get((number as usize).wrapping_sub(1)) else {
        return Marked::refused(10, 0);
    };
    if words.len() % LINE != 0 || !(12..=600).contains(&words.len()) {
        return Marked::refused(13, 0);
    }
    let mut known = Known::of(x, y);
    for (i, line) in words.chunks_exact(LINE).enumerate() {
        let refusal = known.follow(line);
        if refusal != 0 {
            return Marked::refused(refusal, i as u32 + 1);
        }
    }
    let claimed = (words[words.len() - LINE - 2], words[words.len() - 2]);
    Marked { right: claimed == algorithms::answer(processor, operation, x, y), ..Marked::RIGHT }
}

/// What an operand may be without its sign: the constants, x and y, then the results, all in one array.
struct Known {
    magnitudes: [u32; GIVEN + MOST],
    count: usize,
}

const GIVEN: usize = CONSTANTS.len() + 2;

impl Known {
    #[inline(always)]
    fn of(x: u32, y: u32) -> Known {
        let mut magnitudes = [0; GIVEN + MOST];
        magnitudes[..2].copy_from_slice(&[magnitude(x), magnitude(y)]);
        magnitudes[2..GIVEN].copy_from_slice(&CONSTANTS.map(magnitude));
        Known { magnitudes, count: GIVEN }
    }

    #[inline(always)]
    fn has(&self, pattern: u32) -> bool {
        self.magnitudes[..self.count].contains(&magnitude(pattern))
    }

    /// 14 or 15, or 0 and the result is known.
    #[inline(always)]
    fn follow(&mut self, line: &[u32]) -> u32 {
        let &[number, x, y, z, given, given_mark] = line else { return 14 };
        let is_third = if number == 4 { self.has(z) } else { z == 0 };
        if !(1..=4).contains(&number) || !self.has(x) || !self.has(y) || !is_third {
            return 14;
        }
        if answer(number, x, y, z) != (given, given_mark) {
            return 15;
        }
        self.magnitudes[self.count] = magnitude(given);
        self.count += 1;
        0
    }
}

/// A step's result and mark.
#[inline(always)]
fn answer(number: u32, x: u32, y: u32, z: u32) -> (u32, u32) {
    let [a, b, c] = [x, y, z].map(f32::from_bits);
    match number {
        1 => {
            let sum = result(a + b, [x, y]);
            (sum, mark([x, y], || is_sum(wide(x), wide(y), sum)))
        }
        2 => {
            let difference = result(a - b, [x, y]);
            (difference, mark([x, y], || is_sum(wide(x), wide(y ^ SIGN), difference)))
        }
        3 => {
            let product = result(a * b, [x, y]);
            (product, mark([x, y], || wide(x) * wide(y) == wide(product)))
        }
        _ => {
            let fused = result(a.mul_add(b, c), [x, y, z]);
            (fused, mark([x, y, z], || is_sum(wide(x) * wide(y), wide(z), fused)))
        }
    }
}
