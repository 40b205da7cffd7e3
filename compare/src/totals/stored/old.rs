//! What the build that made the file did, by the model: what becomes of number and count has not changed since.
use super::record::{Left, Record};
use crate::totals::call::{Call, Reading};
use crate::totals::model::{self, LENGTH, OLD_LENGTH};

/// The answer of that build; where the call is carried out, the words are what it left in them. An old total is carried over for
/// the call, and loses the last word again.
fn answer(call: Call, words: &mut [u32]) -> Reading {
    if call == Call::Clear && words.len() == OLD_LENGTH {
        words.fill(0);
        return Reading::DONE;
    }
    let mut carried = [0; LENGTH];
    match model::carry_over(words, &mut carried) {
        0 => {}
        refusal => return Reading::refused(refusal),
    }
    let answer = model::answer(call, &mut carried);
    words.copy_from_slice(&carried[..OLD_LENGTH]);
    answer
}

/// Whether a record's line, or where there is none its start, is what the model comes to.
pub fn agrees(record: &Record, line: Option<usize>) -> bool {
    let Some(line) = line else {
        return answer(Call::Read, &mut record.column.start.clone()) == record.start;
    };
    let ((call, times), left) = (record.column.calls[line], &record.left[line]);
    let mut words = record.before(line).0.to_vec();
    let answered = (0..times).all(|_| answer(call, &mut words) == Reading::refused(left.answer));
    let Left { words: right, reading, .. } = left;
    answered && words == *right && answer(Call::Read, &mut words) == *reading
}
