//! What is tested: the steps of the static library.
use crate::library;
use crate::step::{Answer, Question, Step};

// SAFETY, for the four: the functions take and return plain numbers, are proved for every pattern,
// and touch no memory of the caller's.
pub fn add(x: u32, y: u32) -> Answer {
    unsafe { library::jirmeklo_add(x, y) }
}

pub fn sub(x: u32, y: u32) -> Answer {
    unsafe { library::jirmeklo_sub(x, y) }
}

pub fn mul(x: u32, y: u32) -> Answer {
    unsafe { library::jirmeklo_mul(x, y) }
}

pub fn fma(x: u32, y: u32, z: u32) -> Answer {
    unsafe { library::jirmeklo_fma(x, y, z) }
}

/// Whatever answers questions: the library, or the library with a planted fault.
pub trait Subject: Sync {
    fn answer(&self, step: Step, q: Question) -> Answer;
}

pub struct Library;

impl Subject for Library {
    fn answer(&self, step: Step, q: Question) -> Answer {
        match step {
            Step::Add => add(q.x, q.y),
            Step::Sub => sub(q.x, q.y),
            Step::Mul => mul(q.x, q.y),
            Step::Fma => fma(q.x, q.y, q.z),
        }
    }
}
