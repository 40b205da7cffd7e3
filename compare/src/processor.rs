//! The reference: the processor's own binary32 arithmetic.
use crate::flag;
use crate::marks::{self, EXACT, ROUNDED, SPECIAL};
use crate::pattern::{is_nan, NAN, QUIET, SIGN};
use crate::step::{Question, Step};
use std::arch::asm;
use std::hint::black_box;

#[derive(Clone, Copy)]
pub struct Processor {
    pub fused_instruction: bool,
}

/// What the processor says of a question.
#[derive(Clone, Copy)]
pub struct Witness {
    pub result: u32,
    /// The mark by its flag of inexact results: none where an operand is not finite, or no instruction was asked.
    pub mark: Option<u32>,
}

/// What an SSE instruction gives where a NaN comes of operands that are not NaN.
const OWN_NAN: u32 = SIGN | NAN;

/// One SSE instruction of two operands, x in its destination. Of NaN operands it returns the first, quieted; the compiler
/// might exchange those of `+` and `*`, or work them out itself. Not inlined, as it is timed as a function.
macro_rules! instruction {
    ($name:ident, $line:literal) => {
        #[inline(never)]
        pub extern "C" fn $name(x: u32, y: u32) -> u32 {
            // Patterns are moved to the registers as they are: a signalling NaN gets there as such.
            let (mut result, y) = (f32::from_bits(x), f32::from_bits(y));
            // SAFETY: the instruction reads and writes these two registers, and every x86-64 processor has it.
            unsafe { asm!($line, x = inout(xmm_reg) result, y = in(xmm_reg) y, options(pure, nomem, nostack)) };
            result.to_bits()
        }
    };
}

instruction!(add, "addss {x}, {y}");
instruction!(sub, "subss {x}, {y}");
instruction!(mul, "mulss {x}, {y}");

/// One instruction, on a processor that has it. Not inlined either.
///
/// # Safety
/// The processor has the feature `fma`.
#[inline(never)]
#[target_feature(enable = "fma")]
pub unsafe extern "C" fn fma(x: u32, y: u32, z: u32) -> u32 {
    f32::from_bits(x).mul_add(f32::from_bits(y), f32::from_bits(z)).to_bits()
}

/// The C library's `fmaf`.
#[inline(never)]
pub extern "C" fn fma_called(x: u32, y: u32, z: u32) -> u32 {
    f32::from_bits(x).mul_add(f32::from_bits(y), f32::from_bits(z)).to_bits()
}

impl Processor {
    pub fn detect() -> Processor {
        Processor { fused_instruction: is_x86_feature_detected!("fma") }
    }

    /// The result in every bit, but for the NaN of operands that are not NaN, which has the library's sign.
    pub fn answer(self, step: Step, q: Question) -> u32 {
        match step {
            Step::Add => settled(step, q, add(q.x, q.y)),
            Step::Sub => settled(step, q, sub(q.x, q.y)),
            Step::Mul => settled(step, q, mul(q.x, q.y)),
            Step::Fma => self.fused(q.x, q.y, q.z),
        }
    }

    /// The same, with the flag that the instruction raised or not.
    #[inline(always)]
    pub fn witness(self, step: Step, q: Question) -> Witness {
        let (r, inexact) = match step {
            Step::Add => flag::add(q.x, q.y),
            Step::Sub => flag::sub(q.x, q.y),
            Step::Mul => flag::mul(q.x, q.y),
            Step::Fma if q.has_nan(step) || !self.fused_instruction => {
                return Witness { result: self.fused(q.x, q.y, q.z), mark: None }
            }
            Step::Fma => flag::fma(q.x, q.y, q.z),
        };
        let mark = if inexact { ROUNDED } else { EXACT };
        Witness { result: settled(step, q, r), mark: q.is_finite(step).then_some(mark) }
    }

    /// NaN operands go by the rule, written out: which of them an fma returns lies with the form of the instruction that
    /// the compiler takes, or with the C library.
    fn fused(self, x: u32, y: u32, z: u32) -> u32 {
        if is_nan(x) {
            return x | QUIET;
        } else if is_nan(y) {
            return y | QUIET;
        } else if is_nan(z) {
            return z | QUIET;
        }
        // SAFETY: `detect` saw the feature.
        let r = if self.fused_instruction { unsafe { fma(x, y, z) } } else { fma_called(x, y, z) };
        if is_nan(r) {
            NAN
        } else {
            r
        }
    }

    /// The first known answer that the processor does not give, with its flag or without, or the model of marks.
    pub fn distrusted(self) -> Option<String> {
        if !flag::is_plain() {
            return Some("it does not round to nearest, or makes zeros of subnormal numbers".to_string());
        }
        KNOWN.iter().find_map(|&(step, x, y, z, right, mark)| {
            let q = black_box(Question { x, y, z });
            let (plain, witness) = (self.answer(black_box(step), q), self.witness(black_box(step), q));
            let marked = [marks::mark(step, q), witness.mark.unwrap_or(mark)];
            let is_right = plain == right && witness.result == right && marked == [mark; 2];
            let given = format!("{plain:08X} and {:08X} {marked:?}, not {right:08X} {mark}", witness.result);
            (!is_right).then(|| format!("{} {}: {given}", step.name(), q.shown(step)))
        })
    }
}

/// The pattern of the processor's own NaN may be an operand's that is kept.
#[inline(always)]
fn settled(step: Step, q: Question, r: u32) -> u32 {
    if r == OWN_NAN && !q.has_nan(step) {
        NAN
    } else {
        r
    }
}

/// Answers worked out by hand. A processor that flushes subnormals or rounds another way fails the
/// sums and the products; a fused step that rounds twice, in binary32 or in binary64, fails the next;
/// one that returns another NaN operand, or changes it in another way, fails those after it; the last are there
/// for their marks.
const KNOWN: [(Step, u32, u32, u32, u32, u32); 51] = [
    // Subnormals: 2^-149 + 2^-149, 2^-126 - 2^-149, 2^-126 * 1/2.
    (Step::Add, 0x0000_0001, 0x0000_0001, 0, 0x0000_0002, EXACT),
    (Step::Sub, 0x0080_0000, 0x0000_0001, 0, 0x007F_FFFF, EXACT),
    (Step::Mul, 0x0080_0000, 0x3F00_0000, 0, 0x0040_0000, EXACT),
    // Ties: 1 + 2^-24 goes down, (1 + 2^-23) + 2^-24 goes up; 2^-149 * 1/2 goes down, 3 * 2^-149 * 1/2 up.
    (Step::Add, 0x3F80_0000, 0x3380_0000, 0, 0x3F80_0000, ROUNDED),
    (Step::Add, 0x3F80_0001, 0x3380_0000, 0, 0x3F80_0002, ROUNDED),
    (Step::Mul, 0x0000_0001, 0x3F00_0000, 0, 0x0000_0000, ROUNDED),
    (Step::Mul, 0x0000_0003, 0x3F00_0000, 0, 0x0000_0002, ROUNDED),
    // The largest number: half a unit more is an infinity, a little less is not.
    (Step::Add, 0x7F7F_FFFF, 0x7300_0000, 0, 0x7F80_0000, ROUNDED),
    (Step::Add, 0x7F7F_FFFF, 0x72FF_FFFF, 0, 0x7F7F_FFFF, ROUNDED),
    // (1 + 2^-23)^2 - (1 + 2^-22) = 2^-46; two roundings give 0.
    (Step::Fma, 0x3F80_0001, 0x3F80_0001, 0xBF80_0002, 0x2880_0000, EXACT),
    // 24929 * 673 = 2^24 + 1 is a tie that the smallest number decides; in binary64 it is lost.
    (Step::Fma, 0x46C2_C200, 0x4428_4000, 0x0000_0001, 0x4B80_0001, ROUNDED),
    (Step::Fma, 0x46C2_C200, 0x4428_4000, 0x0000_0000, 0x4B80_0000, ROUNDED),
    (Step::Fma, 0x46C2_C200, 0x4428_4000, 0x8000_0001, 0x4B80_0000, ROUNDED),
    // 2^127 * 2 - 2^127: the product alone is an infinity.
    (Step::Fma, 0x7F00_0000, 0x4000_0000, 0xFF00_0000, 0x7F00_0000, EXACT),
    // 2^-75 * 2^-75 + 2^-149 = 1.5 * 2^-149, a tie; the product alone is 0.
    (Step::Fma, 0x1A00_0000, 0x1A00_0000, 0x0000_0001, 0x0000_0002, ROUNDED),
    // A product that is tiny and negative, plus 0, is -0; two roundings give +0.
    (Step::Fma, 0x0D80_0000, 0x8D80_0000, 0x0000_0000, 0x8000_0000, ROUNDED),
    (Step::Fma, 0x3F80_0000, 0x3F80_0000, 0xBF80_0000, 0x0000_0000, EXACT),
    // An infinity times 0, and infinities that cancel.
    (Step::Fma, 0x7F80_0000, 0x0000_0000, 0x3F80_0000, 0x7FC0_0000, SPECIAL),
    (Step::Fma, 0x7F80_0000, 0x3F80_0000, 0xFF80_0000, 0x7FC0_0000, SPECIAL),
    (Step::Add, 0xFF80_0000, 0x7F80_0000, 0, 0x7FC0_0000, SPECIAL),
    (Step::Sub, 0x7F80_0000, 0x7F80_0000, 0, 0x7FC0_0000, SPECIAL),
    (Step::Mul, 0x8000_0000, 0x7F80_0000, 0, 0x7FC0_0000, SPECIAL),
    // A NaN keeps its sign and payload; a signalling one becomes quiet.
    (Step::Add, 0x7FC0_0001, 0x0000_0000, 0, 0x7FC0_0001, SPECIAL),
    (Step::Add, 0x3F80_0000, 0xFF81_2345, 0, 0xFFC1_2345, SPECIAL),
    (Step::Mul, 0xBF80_0000, 0x7FC1_2345, 0, 0x7FC1_2345, SPECIAL),
    (Step::Mul, 0xFF80_0001, 0x7F80_0000, 0, 0xFFC0_0001, SPECIAL),
    // One that no payload tells from what infinities give.
    (Step::Add, 0xFFC0_0000, 0x3F80_0000, 0, 0xFFC0_0000, SPECIAL),
    // A subtraction does not turn the sign of its second operand.
    (Step::Sub, 0x3F80_0000, 0x7FC1_2345, 0, 0x7FC1_2345, SPECIAL),
    (Step::Sub, 0x7F80_0000, 0xFFBF_FFFF, 0, 0xFFFF_FFFF, SPECIAL),
    // Of two the first, whichever signals.
    (Step::Add, 0x7FC0_0001, 0xFFC0_0002, 0, 0x7FC0_0001, SPECIAL),
    (Step::Add, 0xFF80_0001, 0x7FC0_0002, 0, 0xFFC0_0001, SPECIAL),
    (Step::Sub, 0x7FC0_0002, 0xFF80_0001, 0, 0x7FC0_0002, SPECIAL),
    (Step::Mul, 0x7FC0_0001, 0x7FFF_FFFF, 0, 0x7FC0_0001, SPECIAL),
    // Of three too, and before what an infinity times 0 would give.
    (Step::Fma, 0x3F80_0000, 0xFF80_0002, 0x7FC0_0003, 0xFFC0_0002, SPECIAL),
    (Step::Fma, 0x7FC0_0001, 0xFF80_0002, 0x7FC0_0003, 0x7FC0_0001, SPECIAL),
    (Step::Fma, 0x0000_0000, 0x7F80_0000, 0xFF80_0003, 0xFFC0_0003, SPECIAL),
    // 2^127 + 2^127 would need no rounding if there were room, and 2^-149 * (1 + 2^-23) neither.
    (Step::Add, 0x7F00_0000, 0x7F00_0000, 0, 0x7F80_0000, ROUNDED),
    (Step::Mul, 0x0000_0001, 0x3F80_0001, 0, 0x0000_0001, ROUNDED),
    // Zeros: of numbers that cancel, of zeros, of what is too small.
    (Step::Sub, 0x3F80_0001, 0x3F80_0001, 0, 0x0000_0000, EXACT),
    (Step::Add, 0x0000_0000, 0x8000_0000, 0, 0x0000_0000, EXACT),
    (Step::Mul, 0x8000_0000, 0x7F7F_FFFF, 0, 0x8000_0000, EXACT),
    (Step::Mul, 0x0D80_0000, 0x0D80_0000, 0, 0x0000_0000, ROUNDED),
    (Step::Fma, 0x0000_0001, 0x0000_0001, 0x0000_0000, 0x0000_0000, ROUNDED),
    // A zero adds nothing, and the smallest number is lost.
    (Step::Add, 0x7F7F_FFFF, 0x8000_0000, 0, 0x7F7F_FFFF, EXACT),
    (Step::Sub, 0x7F7F_FFFF, 0x0000_0001, 0, 0x7F7F_FFFF, ROUNDED),
    (Step::Fma, 0x3F80_0001, 0x3F80_0001, 0x0000_0000, 0x3F80_0002, ROUNDED),
    (Step::Fma, 0x7F7F_FFFF, 0x7F7F_FFFF, 0xFF7F_FFFF, 0x7F80_0000, ROUNDED),
    // An infinity that is an operand, though the result is no NaN: the third too.
    (Step::Mul, 0x7F80_0000, 0x3F80_0000, 0, 0x7F80_0000, SPECIAL),
    (Step::Sub, 0x3F80_0000, 0x7F80_0000, 0, 0xFF80_0000, SPECIAL),
    (Step::Fma, 0x3F80_0000, 0x3F80_0000, 0x7F80_0000, 0x7F80_0000, SPECIAL),
    (Step::Fma, 0x0000_0000, 0x0000_0000, 0xFF80_0000, 0xFF80_0000, SPECIAL),
];
