//! The text of the stored totals, to be read by people and here.
use super::record::{Column, Left, Record};
use crate::pattern;
use crate::totals::call::{Call, Reading};
use std::iter::Peekable;

/// What the file begins with. It does not depend on the library that makes the file.
const LEGEND: &str = "\
# Totals: calls on them, the words that each call left, and what these read. The page README.md says which build made them.
#
# A column starts from the words that are given, lowest first: 3:W is word 3, 5-19:W is each of the words 5 to 19. Of 21 words
# the last, word 20, is the count of terms. Then there is a line for each call, which is made on what the line before left;
# where the words are given after \"each from\", it is made on these.
#
# A line has the call: X adds the pattern X, X*Y the product of X and Y, clear empties the total. x50 behind it says that it is
# made 50 times. Then its answer, which is 0 or a refusal; then every word that is another than before, and no more words;
# and after = what the total then reads, which is first and second, or a refusal.
#
# Patterns and words are hexadecimal, words without leading zeros; all else is decimal.
";

pub fn of(records: &[Record]) -> String {
    let columns = records.iter().enumerate().map(|(i, record)| {
        let heading = format!("\ncolumn {}: {}\n", i + 1, record.column.shows);
        let each = if record.column.apart { "each " } else { "" };
        let words = spans(record.column.start.iter().copied().enumerate());
        let start = format!("{each}from{words} = {}\n", reading_text(record.start));
        let lines: String = (0..record.left.len()).map(|i| line(record, i) + "\n").collect();
        heading + &start + &lines
    });
    LEGEND.to_string() + &columns.collect::<String>()
}

/// A call and what it left, as the file has it.
pub fn line(record: &Record, i: usize) -> String {
    let ((call, times), left) = (record.column.calls[i], &record.left[i]);
    let times = if times == 1 { String::new() } else { format!(" x{times}") };
    let changed = left.words.iter().zip(record.before(i).0).enumerate();
    let changed = changed.filter(|(_, (word, before))| word != before).map(|(i, (&word, _))| (i, word));
    let reading = reading_text(left.reading);
    format!("{}{times} {}{} = {reading}", self::call(call), left.answer, spans(changed))
}

/// The number of a record's line in the text; `None` is that of its start.
pub fn line_number(records: &[Record], record: usize, line: Option<usize>) -> usize {
    // A column has an empty line, a heading and its start before its calls.
    let before: usize = records[..record].iter().map(|record| 3 + record.left.len()).sum();
    LEGEND.lines().count() + before + 3 + line.map_or(0, |line| line + 1)
}

pub fn call(call: Call) -> String {
    match call {
        Call::Clear => "clear".to_string(),
        Call::Pattern(x) => format!("{x:08X}"),
        Call::Product(x, y) => format!("{x:08X}*{y:08X}"),
        Call::Read => unreachable!("every line ends with a reading"),
    }
}

fn reading_text(reading: Reading) -> String {
    match reading {
        Reading { refusal: 0, first, second } => format!("{first:08X} {second:08X}"),
        Reading { refusal, .. } => format!("refused {refusal}"),
    }
}

/// Words with their places; equal ones that follow each other are taken together.
fn spans(words: impl Iterator<Item = (usize, u32)>) -> String {
    let mut words = words.peekable();
    let mut text = String::new();
    while let Some((first, word)) = words.next() {
        text += &match last_of(first, word, &mut words) {
            last if last == first => format!(" {first}:{word:X}"),
            last => format!(" {first}-{last}:{word:X}"),
        };
    }
    text
}

/// The place of the last of equal words, which are taken.
fn last_of(first: usize, word: u32, words: &mut Peekable<impl Iterator<Item = (usize, u32)>>) -> usize {
    let mut last = first;
    while words.next_if_eq(&(last + 1, word)).is_some() {
        last += 1;
    }
    last
}

/// What a text says, if it is written just as it would be printed.
pub fn records(text: &str) -> Result<Vec<Record>, String> {
    let mut records = Vec::new();
    for (i, line) in text.lines().enumerate() {
        take_line(line, &mut records).ok_or_else(|| format!("line {} is malformed", i + 1))?;
    }
    if records.is_empty() || records.iter().any(|record| record.left.is_empty()) {
        return Err("there is no column, or one without calls".to_string());
    }
    // Whatever was taken too kindly, or passed over, does not come out again.
    let printed = of(&records);
    if printed != text {
        let same = printed.lines().zip(text.lines()).take_while(|(a, b)| a == b).count();
        return Err(format!("line {} is not written as it is printed", same + 1));
    }
    Ok(records)
}

fn take_line(line: &str, records: &mut Vec<Record>) -> Option<()> {
    if line.is_empty() || line.starts_with('#') {
        return Some(());
    }
    if let Some(heading) = line.strip_prefix("column ") {
        let (_, shows) = heading.split_once(": ")?;
        let column = Column::new(shows, Vec::new(), Vec::new());
        records.push(Record { column, start: Reading::DONE, left: Vec::new() });
        return Some(());
    }
    let record = records.last_mut()?;
    let (line, reading) = line.split_once(" = ")?;
    let (reading, mut words) = (reading_of(reading)?, line.split(' '));
    match words.next()? {
        "each" if words.next()? == "from" => record.column.apart = true,
        "from" => {}
        call => return take_call(call_of(call)?, words.peekable(), reading, record),
    }
    record.start = reading;
    change(&mut record.column.start, words, MOST_WORDS)
}

/// More than any total of the file has.
const MOST_WORDS: usize = 1000;

fn take_call<'a>(
    call: Call,
    mut words: Peekable<impl Iterator<Item = &'a str>>,
    reading: Reading,
    record: &mut Record,
) -> Option<()> {
    let times = match words.next_if(|word| word.starts_with('x')) {
        Some(times) => times[1..].parse().ok()?,
        None => 1,
    };
    let answer = words.next()?.parse().ok()?;
    let mut after = record.before(record.left.len()).0.to_vec();
    let length = after.len();
    change(&mut after, words, length)?;
    record.column.calls.push((call, times));
    record.left.push(Left { answer, words: after, reading });
    Some(())
}

/// Puts words in their places, up to `most` of them.
fn change<'a>(words: &mut Vec<u32>, spans: impl Iterator<Item = &'a str>, most: usize) -> Option<()> {
    for span in spans {
        let (places, word) = span.split_once(':')?;
        let (first, last) = places.split_once('-').unwrap_or((places, places));
        let (first, last): (usize, usize) = (first.parse().ok()?, last.parse().ok()?);
        if first > last || last >= most {
            return None;
        }
        words.resize(words.len().max(last + 1), 0);
        words[first..=last].fill(u32::from_str_radix(word, 16).ok()?);
    }
    Some(())
}

fn call_of(word: &str) -> Option<Call> {
    match word.split_once('*') {
        _ if word == "clear" => Some(Call::Clear),
        None => pattern::read(word).map(Call::Pattern),
        Some((x, y)) => Some(Call::Product(pattern::read(x)?, pattern::read(y)?)),
    }
}

fn reading_of(text: &str) -> Option<Reading> {
    match text.split_once(' ')? {
        ("refused", refusal) => Some(Reading::refused(refusal.parse().ok()?)),
        (first, second) => Some(Reading::of(pattern::read(first)?, pattern::read(second)?)),
    }
}
