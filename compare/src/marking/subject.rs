//! What is tested: marking by the static library.
use super::model::Marked;
use crate::library;
use crate::totals::subject::Lent;

/// Whatever marks lines: the library, or another with a planted fault.
pub trait Subject: Sync {
    /// Only a fault writes to the words.
    fn mark(&self, operation: u32, x: u32, y: u32, lent: &mut Lent) -> Marked;
}

pub struct Library;

impl Subject for Library {
    fn mark(&self, operation: u32, x: u32, y: u32, lent: &mut Lent) -> Marked {
        mark(operation, x, y, lent.words())
    }
}

pub fn mark(operation: u32, x: u32, y: u32, words: &[u32]) -> Marked {
    // SAFETY: the function is proved for all slices, patterns and numbers, reads no memory but the slice's,
    // writes none, and keeps none.
    unsafe { library::jirmeklo_mark(operation, x, y, words.as_ptr(), words.len()) }
}
