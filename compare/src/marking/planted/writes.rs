//! Faults that write, where words are only looked at.
use super::rules::{Rules, RIGHT};
use super::Row;
use crate::marking::model::Marked;
use crate::marking::worksheets::Shape;
use crate::totals::subject::Lent;

pub const FAULTS: [Row; 5] = [
    (by(|lent, _| spoil(lent.words_mut().first_mut())), Shape::Walks, "the first word written"),
    (by(|lent, _| spoil(lent.words_mut().last_mut())), Shape::Walks, "the last word written"),
    (by(|lent, _| spoil(lent.words_and_next().last_mut())), Shape::Lengths, "the word behind written"),
    (by(where_refused), Shape::Faults, "a refusal that writes"),
    (by(where_right), Shape::Sheets, "what is right written to"),
];

const fn by(writes: fn(&mut Lent, Marked)) -> Rules {
    Rules { writes, ..RIGHT }
}

fn spoil(word: Option<&mut u32>) {
    if let Some(word) = word {
        *word ^= 1;
    }
}

fn where_refused(lent: &mut Lent, marked: Marked) {
    if marked.refusal != 0 {
        spoil(lent.words_mut().first_mut());
    }
}

fn where_right(lent: &mut Lent, marked: Marked) {
    if marked.right {
        spoil(lent.words_mut().last_mut());
    }
}
