//! Holds a subject to the stored totals: it has to carry them over, to read them as they are stored, and to go on with them.
use super::record::{Left, Record};
use super::{old, text};
use crate::pattern::SIGN;
use crate::totals::call::{Call, Reading};
use crate::totals::model::{Term, LENGTH, ZERO_SIGN};
use crate::totals::number::WORDS;
use crate::totals::subject::{Lent, Subject};
use crate::workers::SHOWN;

/// Where a subject does otherwise than a line says; without a line, than the start says.
pub struct Difference {
    record: usize,
    line: Option<usize>,
    what: String,
}

impl Difference {
    pub fn shown(&self, records: &[Record]) -> String {
        let record = &records[self.record];
        let number = text::line_number(records, self.record, self.line);
        let line = self.line.map_or("its start".to_string(), |line| text::line(record, line));
        format!("line {number}, column {} ({}), {line}: {}", self.record + 1, record.column.shows, self.what)
    }
}

pub struct Outcome {
    pub calls: u64,
    pub states: u64,
    pub differences: Vec<Difference>,
}

/// Every state of every record carried over and read, and every call made on the state before it. The first difference of a record
/// is its last, in either way.
pub fn compare<S: Subject>(subject: &S, records: &[Record]) -> Outcome {
    let mut outcome = Outcome { calls: 0, states: 0, differences: Vec::new() };
    for (i, record) in records.iter().enumerate() {
        let made = (0..record.left.len()).filter(|&line| record.before(line).1.refusal == 0);
        outcome.calls += made.map(|line| u64::from(record.column.calls[line].1)).sum::<u64>();
        outcome.states += record.states() as u64;
        let read = (0..record.states())
            .find_map(|state| Some((state.checked_sub(1), unread(subject, record, state)?)));
        let gone_on =
            (0..record.left.len()).find_map(|line| Some((Some(line), not_gone_on(subject, record, line)?)));
        let met = read.into_iter().chain(gone_on);
        outcome.differences.extend(met.map(|(line, what)| Difference { record: i, line, what }));
    }
    outcome
}

/// What the model has otherwise than the file, whatever a library does.
pub fn by_model(records: &[Record]) -> Option<Difference> {
    let line = |record: &Record| {
        (0..record.states()).map(|i| i.checked_sub(1)).find(|&line| !old::agrees(record, line))
    };
    let what = "the model comes to something else".to_string();
    let met = records.iter().enumerate().find_map(|(i, record)| Some((i, line(record)?)));
    met.map(|(record, line)| Difference { record, line, what })
}

/// What is otherwise where a state of a record comes as words, is carried over, and is read.
pub fn unread<S: Subject>(subject: &S, record: &Record, state: usize) -> Option<String> {
    let (words, reading) = record.state(state);
    match carried_over(subject, words, reading) {
        Ok(Some(mut new)) => misread(subject, &mut new, reading).map(|what| format!("carried over, {what}")),
        Ok(None) => None,
        Err(what) => Some(what),
    }
}

/// What is otherwise where a line's call is made on the state before it, which is carried over.
pub fn not_gone_on<S: Subject>(subject: &S, record: &Record, line: usize) -> Option<String> {
    let (words, reading) = record.before(line);
    match carried_over(subject, words, reading) {
        Ok(Some(mut new)) => unlike(subject, record.column.calls[line], &record.left[line], &mut new),
        Ok(None) => None,
        Err(what) => Some(what),
    }
}

/// What the new words hold before: no total, and nothing that one is likely to have.
const BEFORE: [u32; LENGTH] = [0xA5A5_A5A5; LENGTH];

/// What a stored state becomes: nothing where it was refused when it was read, which is then the answer here too. Otherwise its own
/// words, and a last one that goes by the count.
fn carried_over<S: Subject>(subject: &S, words: &[u32], reading: Reading) -> Result<Option<Lent>, String> {
    let (mut old, mut new) = (Lent::new(words), Lent::new(&BEFORE));
    let refusal = subject.carry_over(&mut old, &mut new);
    if refusal != reading.refusal {
        return Err(format!("carrying it over answers {refusal}"));
    }
    let mut right = BEFORE;
    if refusal == 0 {
        right[..words.len()].copy_from_slice(words);
        right[ZERO_SIGN] = u32::from(words[WORDS] > 0);
    }
    let disturbed = disturbed(&old, words).map(|what| format!("after it is carried over, {what}"));
    match disturbed.or_else(|| self::disturbed(&new, &right).map(|what| format!("carried over, {what}"))) {
        Some(what) => Err(what),
        None => Ok((refusal == 0).then_some(new)),
    }
}

/// What a call on a carried total answers, leaves or reads otherwise. Number and count are those of the file; the last word is not
/// in it, and where nothing but -0 was added to an empty total, that now reads -0.
fn unlike<S: Subject>(
    subject: &S,
    (call, times): (Call, u32),
    left: &Left,
    lent: &mut Lent,
) -> Option<String> {
    let had_only_minus_zeros = lent.words()[ZERO_SIGN] == 0;
    for _ in 0..times {
        let answer = subject.answer(call, lent);
        if answer != Reading::refused(left.answer) {
            return Some(format!("the answer is {}", answer.refusal));
        }
    }
    let has_only_minus_zeros = match call {
        _ if left.answer != 0 => had_only_minus_zeros,
        Call::Clear => true,
        _ => had_only_minus_zeros && Term::of(call).minus_zero,
    };
    let mut right = left.words.clone();
    right.push(u32::from(!has_only_minus_zeros));
    let reads_minus = has_only_minus_zeros && left.words[WORDS] > 0;
    let reading = if reads_minus { Reading::of(SIGN, SIGN) } else { left.reading };
    disturbed(lent, &right).or_else(|| misread(subject, lent, reading))
}

/// A reading that is another, or that writes.
fn misread<S: Subject>(subject: &S, lent: &mut Lent, reading: Reading) -> Option<String> {
    let words = lent.words().to_vec();
    let given = subject.answer(Call::Read, lent);
    if given != reading {
        return Some(format!("it reads {}", given.shown()));
    }
    disturbed(lent, &words).map(|what| format!("after a reading {what}"))
}

/// Every word counts, also those that a line does not list, and those beside the lent ones.
fn disturbed(lent: &Lent, words: &[u32]) -> Option<String> {
    let wrong = (0..words.len()).find(|&i| lent.words()[i] != words[i]);
    match wrong {
        Some(i) => Some(format!("word {i} is {:X}, not {:X}", lent.words()[i], words[i])),
        None if !lent.is_guarded() => Some("a word beside the lent ones is written".to_string()),
        None => None,
    }
}

/// The line of the report, and under it the first differences.
pub fn report(records: &[Record], outcome: &Outcome) {
    println!(
        "total     stored      {:>9} calls      {}, {} states",
        outcome.calls,
        if outcome.differences.is_empty() { "no difference" } else { "DIFFERENT" },
        outcome.states
    );
    for difference in outcome.differences.iter().take(SHOWN) {
        println!("    {}", difference.shown(records));
    }
}
