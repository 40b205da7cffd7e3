//! The Rust toolchain's software floats, to be timed beside the library.

mod builtins {
    // Defined by compiler_builtins, which every Rust program links. They take floats, so that an
    // operand is moved to a vector register and back: that is part of their call.
    extern "C" {
        pub fn __addsf3(x: f32, y: f32) -> f32;
        pub fn __subsf3(x: f32, y: f32) -> f32;
        pub fn __mulsf3(x: f32, y: f32) -> f32;
    }
}

// SAFETY, for the three: plain numbers in and out, defined for every float.
#[inline(always)]
pub fn add(x: u32, y: u32) -> u32 {
    unsafe { builtins::__addsf3(f32::from_bits(x), f32::from_bits(y)) }.to_bits()
}

#[inline(always)]
pub fn sub(x: u32, y: u32) -> u32 {
    unsafe { builtins::__subsf3(f32::from_bits(x), f32::from_bits(y)) }.to_bits()
}

#[inline(always)]
pub fn mul(x: u32, y: u32) -> u32 {
    unsafe { builtins::__mulsf3(f32::from_bits(x), f32::from_bits(y)) }.to_bits()
}
