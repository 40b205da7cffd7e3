//! Damage to the stored totals, which has to be found with the library as it is: a file that holds nothing would hold anything.
use crate::totals::stored::compare::{by_model, compare, not_gone_on, unread};
use crate::totals::stored::record::Record;
use crate::totals::stored::{old, records};
use crate::totals::subject::Library;

/// What was tried, all of it found, or what was missed.
pub fn found(text: &str, stored: &[Record]) -> Result<[&'static str; 6], String> {
    let names =
        ["an emptied file", "one without columns", "a last line lost", "a last column lost", DIGIT, LINE];
    let whole = ["", legend(text), without_last(text, "\n"), without_last(text, "\n\ncolumn ")];
    if let Some(i) = whole.iter().position(|damaged| !fails(damaged)) {
        return Err(format!("stored totals, {}", names[i]));
    }
    if let Some(place) = digits(text).find(|&place| !fails(&with_other_digit(text, place))) {
        return Err(format!("stored totals, {DIGIT}: byte {place}"));
    }
    match stored.iter().find_map(unseen) {
        Some(what) => Err(format!("stored totals, {LINE}: {what}")),
        None => Ok(names),
    }
}

const DIGIT: &str = "a digit changed";
const LINE: &str = "another answer, word or reading in each line";

/// Not taken for a file of stored totals, or the library or the model comes to something else.
fn fails(text: &str) -> bool {
    let differs = |records: Vec<Record>| {
        !compare(&Library, &records).differences.is_empty() || by_model(&records).is_some()
    };
    records(text).map_or(true, differs)
}

fn legend(text: &str) -> &str {
    text.split("\ncolumn ").next().unwrap_or("")
}

/// The text up to the last such mark, with the newline that it begins with.
fn without_last<'a>(text: &'a str, mark: &str) -> &'a str {
    let trimmed = text.trim_end();
    trimmed.rfind(mark).map_or("", |end| &text[..=end])
}

/// A prime number, so that digits of every kind of line and of every place in it are among those tried.
const STRIDE: usize = 2003;

fn digits(text: &str) -> impl Iterator<Item = usize> + '_ {
    let body = legend(text).len();
    let is_digit = |byte: u8| byte.is_ascii_digit() || (b'A'..=b'F').contains(&byte);
    text.bytes()
        .enumerate()
        .skip(body)
        .filter(move |&(_, byte)| is_digit(byte))
        .map(|(i, _)| i)
        .step_by(STRIDE)
}

fn with_other_digit(text: &str, place: usize) -> String {
    let other = if &text[place..=place] == "0" { "1" } else { "0" };
    [&text[..place], other, &text[place + 1..]].concat()
}

/// A line of a record in which something may be otherwise, and nothing is found.
fn unseen(record: &Record) -> Option<String> {
    let shows = &record.column.shows;
    let line = (0..record.left.len()).find(|&line| !is_seen(record, line));
    line.map(|line| format!("call {} of \"{shows}\"", line + 1))
}

fn is_seen(record: &Record, line: usize) -> bool {
    let with = |damage: &dyn Fn(&mut Record)| {
        let mut damaged = record.clone();
        damage(&mut damaged);
        damaged
    };
    let answer = with(&|record| record.left[line].answer += 1);
    let word = with(&|record| {
        let words = &mut record.left[line].words;
        let i = line % words.len();
        words[i] ^= 1 << (line % 32);
    });
    let reading = with(&|record| match &mut record.left[line].reading {
        read if read.refusal == 0 => read.second ^= 1,
        refused => refused.refusal += 1,
    });
    let by_model = [&answer, &word, &reading].iter().all(|damaged| !old::agrees(damaged, Some(line)));
    // Where the state before is not carried over, no call is made.
    let made = record.before(line).1.refusal == 0;
    let by_calls =
        !made || [&answer, &word].iter().all(|damaged| not_gone_on(&Library, damaged, line).is_some());
    by_model && by_calls && unread(&Library, &reading, line + 1).is_some()
}
