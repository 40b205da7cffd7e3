//! The processor's own word on exactness: one instruction, between clearing its status and reading it.
use std::arch::asm;

/// Of MXCSR: no flag raised, every exception masked, to nearest with ties to even, no subnormal operand taken for a zero and no
/// subnormal result made one.
const PLAIN: u32 = 0x1F80;
/// The bits that say how the processor computes; the others are the flags.
const MODE: u32 = 0xFFC0;
/// The flag of a result that is not the exact one. An overflow raises it too.
const INEXACT: u32 = 0x0020;

/// Whether this thread computes as it should without being told.
pub fn is_plain() -> bool {
    let mut status = 0u32;
    // SAFETY: the instruction writes these four bytes, and every x86-64 processor has it.
    unsafe { asm!("stmxcsr [{to}]", to = in(reg) &raw mut status, options(nostack)) };
    status & MODE == PLAIN
}

/// One instruction of the operands, x in its destination: the result, and whether the flag was raised. Nothing but that instruction
/// stands between the two that clear the flags and read them.
macro_rules! flagged {
    ($name:ident, $line:literal $(, $more:ident)*) => {
        #[inline(always)]
        pub fn $name(x: u32, $($more: u32),*) -> (u32, bool) {
            let (mut result, mut status) = (f32::from_bits(x), PLAIN);
            $(let $more = f32::from_bits($more);)*
            // SAFETY: four bytes are read and written, which are this function's own. The mode that is loaded is the one that Rust
            // counts on, and flags may be left raised.
            unsafe {
                asm!(
                    "ldmxcsr [{status}]",
                    $line,
                    "stmxcsr [{status}]",
                    status = in(reg) &raw mut status,
                    x = inout(xmm_reg) result,
                    $($more = in(xmm_reg) $more,)*
                    options(nostack)
                )
            };
            (result.to_bits(), status & INEXACT != 0)
        }
    };
}

flagged!(add, "addss {x}, {y}", y);
flagged!(sub, "subss {x}, {y}", y);
flagged!(mul, "mulss {x}, {y}", y);
// x * y + z, on a processor that has it: another is stopped by the system.
flagged!(fma, "vfmadd213ss {x}, {y}, {z}", y, z);
