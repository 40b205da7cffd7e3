//! What is tested: the totals of the static library, on words that are lent to it.
use super::call::{Call, Reading};
use crate::library;

// SAFETY, for the six: the functions are proved for every slice and every pattern, touch no memory but the
// slices', and keep none of it. No two slices overlap, as one of them is lent to be written.
pub fn clear(total: &mut [u32]) -> u32 {
    unsafe { library::jirmeklo_clear(total.as_mut_ptr(), total.len()) }
}

pub fn add_pattern(total: &mut [u32], x: u32) -> u32 {
    unsafe { library::jirmeklo_add_pattern(total.as_mut_ptr(), total.len(), x) }
}

pub fn add_product(total: &mut [u32], x: u32, y: u32) -> u32 {
    unsafe { library::jirmeklo_add_product(total.as_mut_ptr(), total.len(), x, y) }
}

pub fn join(first: &mut [u32], second: &[u32]) -> u32 {
    unsafe { library::jirmeklo_join(first.as_mut_ptr(), first.len(), second.as_ptr(), second.len()) }
}

pub fn carry_over(old: &[u32], total: &mut [u32]) -> u32 {
    unsafe { library::jirmeklo_carry_over(old.as_ptr(), old.len(), total.as_mut_ptr(), total.len()) }
}

pub fn read(total: &[u32]) -> Reading {
    unsafe { library::jirmeklo_read(total.as_ptr(), total.len()) }
}

/// What stands around lent words: neither 0 nor all ones, so that a write of either is seen.
const GUARD: u32 = 0x5AA5_C33C;
/// An odd number, so that the words are aligned as words and no better.
const GUARDS: usize = 5;

/// Words that are lent for a call, with guards before and after them.
pub struct Lent {
    all: Vec<u32>,
}

impl Lent {
    pub fn new(words: &[u32]) -> Lent {
        let guards = [GUARD; GUARDS];
        Lent { all: [&guards, words, &guards].concat() }
    }

    pub fn words(&self) -> &[u32] {
        &self.all[GUARDS..self.all.len() - GUARDS]
    }

    pub fn words_mut(&mut self) -> &mut [u32] {
        let end = self.all.len() - GUARDS;
        &mut self.all[GUARDS..end]
    }

    /// The words, and the one after them that is not lent.
    pub fn words_and_next(&mut self) -> &mut [u32] {
        let end = self.all.len() - GUARDS + 1;
        &mut self.all[GUARDS..end]
    }

    pub fn is_guarded(&self) -> bool {
        let (before, rest) = self.all.split_at(GUARDS);
        let after = &rest[rest.len() - GUARDS..];
        before.iter().chain(after).all(|&word| word == GUARD)
    }
}

/// Whatever keeps totals: the library, or the library with a planted fault.
pub trait Subject: Sync {
    fn answer(&self, call: Call, lent: &mut Lent) -> Reading;

    /// The refusal. Only a fault writes to the second.
    fn join(&self, first: &mut Lent, second: &mut Lent) -> u32;

    /// The refusal. Only a fault writes to the old total.
    fn carry_over(&self, old: &mut Lent, new: &mut Lent) -> u32;
}

pub struct Library;

impl Subject for Library {
    fn answer(&self, call: Call, lent: &mut Lent) -> Reading {
        match call {
            Call::Clear => Reading::refused(clear(lent.words_mut())),
            Call::Pattern(x) => Reading::refused(add_pattern(lent.words_mut(), x)),
            Call::Product(x, y) => Reading::refused(add_product(lent.words_mut(), x, y)),
            Call::Read => read(lent.words()),
        }
    }

    fn join(&self, first: &mut Lent, second: &mut Lent) -> u32 {
        join(first.words_mut(), second.words())
    }

    fn carry_over(&self, old: &mut Lent, new: &mut Lent) -> u32 {
        carry_over(old.words(), new.words_mut())
    }
}
