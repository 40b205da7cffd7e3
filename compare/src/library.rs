//! The library's functions and structs, as `include/jirmeklo.h` declares them: `header.rs` holds this file to it.
//! A struct `Name` is the header's `jirmeklo_name`. Nothing else stands here.

#[repr(C)]
#[derive(Clone, Copy, PartialEq, Eq, Debug)]
pub struct Flags {
    pub invalid: bool,
    pub overflow: bool,
    pub underflow: bool,
    pub inexact: bool,
}

/// A step's result and mark.
#[repr(C)]
#[derive(Clone, Copy, PartialEq, Eq, Debug)]
pub struct Step {
    pub result: u32,
    pub mark: u32,
}

#[repr(C)]
#[derive(Clone, Copy, PartialEq, Eq, Debug)]
pub struct Pair {
    pub first: u32,
    pub second: u32,
    pub flags: Flags,
}

/// A reading's pair, or a refusal and two zeros.
#[repr(C)]
#[derive(Clone, Copy, PartialEq, Eq, Debug)]
pub struct Reading {
    pub refusal: u32,
    pub first: u32,
    pub second: u32,
}

/// What filling hands over: the line count, the foot and its flags; all is 0 and false where it is refused.
#[repr(C)]
#[derive(Clone, Copy, PartialEq, Eq, Debug)]
pub struct Filled {
    pub refusal: u32,
    pub lines: u32,
    pub first: u32,
    pub second: u32,
    pub flags: Flags,
}

/// What marking says of a candidate's lines: a refusal, with the line that it is about, or whether they reach the pair.
#[repr(C)]
#[derive(Clone, Copy, PartialEq, Eq, Debug)]
pub struct Marked {
    pub refusal: u32,
    pub line: u32,
    pub right: bool,
}

extern "C" {
    pub fn jirmeklo_add(x: u32, y: u32) -> Step;
    pub fn jirmeklo_sub(x: u32, y: u32) -> Step;
    pub fn jirmeklo_mul(x: u32, y: u32) -> Step;
    pub fn jirmeklo_fma(x: u32, y: u32, z: u32) -> Step;
    pub fn jirmeklo_sum(x: u32, y: u32) -> Pair;
    pub fn jirmeklo_difference(x: u32, y: u32) -> Pair;
    pub fn jirmeklo_product(x: u32, y: u32) -> Pair;
    pub fn jirmeklo_clear(total: *mut u32, words: usize) -> u32;
    pub fn jirmeklo_add_pattern(total: *mut u32, words: usize, x: u32) -> u32;
    pub fn jirmeklo_add_product(total: *mut u32, words: usize, x: u32, y: u32) -> u32;
    pub fn jirmeklo_join(first: *mut u32, words: usize, second: *const u32, second_words: usize) -> u32;
    pub fn jirmeklo_carry_over(old: *const u32, old_words: usize, total: *mut u32, words: usize) -> u32;
    pub fn jirmeklo_read(total: *const u32, words: usize) -> Reading;
    pub fn jirmeklo_fill(operation: u32, x: u32, y: u32, words: *mut u32, count: usize) -> Filled;
    pub fn jirmeklo_mark(operation: u32, x: u32, y: u32, lines: *const u32, words: usize) -> Marked;
    pub fn jirmeklo_replay(
        operations: *const u32,
        operations_count: usize,
        xs: *const u32,
        xs_count: usize,
        ys: *const u32,
        ys_count: usize,
        counts: *const u32,
        counts_count: usize,
        words: *mut u32,
        words_count: usize,
        first: *mut u32,
        first_count: usize,
        second: *mut u32,
        second_count: usize,
    ) -> u32;
}
