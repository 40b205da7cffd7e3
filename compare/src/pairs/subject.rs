//! What is tested: the pairs of the static library.
use super::pair::{Operation, Pair};
use crate::library;

// SAFETY, for the three: the functions take and return plain numbers, are proved for every pattern,
// and touch no memory of the caller's.
pub fn sum(x: u32, y: u32) -> Pair {
    unsafe { library::jirmeklo_sum(x, y) }
}

pub fn difference(x: u32, y: u32) -> Pair {
    unsafe { library::jirmeklo_difference(x, y) }
}

pub fn product(x: u32, y: u32) -> Pair {
    unsafe { library::jirmeklo_product(x, y) }
}

/// Whatever gives pairs: the library, or the library with a planted fault.
pub trait Subject: Sync {
    fn pair(&self, operation: Operation, x: u32, y: u32) -> Pair;
}

pub struct Library;

impl Subject for Library {
    fn pair(&self, operation: Operation, x: u32, y: u32) -> Pair {
        match operation {
            Operation::Sum => sum(x, y),
            Operation::Difference => difference(x, y),
            Operation::Product => product(x, y),
        }
    }
}
