//! Faults in what is printed, as changes of the right text.
use crate::pattern::{self, SIGN};
use crate::sheets::files::branches::{way, Way};
use crate::sheets::files::Shape;
use crate::sheets::line::{self, Asked};
use crate::sheets::model::MOST;

type Row = (fn(&str) -> String, Shape, &'static str);

pub const FAULTS: [Row; 25] = [
    (|t| one(t, "step", 6, wrong_last), Shape::Uniform, "one wrong digit"),
    (
        |t| fields(t, "step", 5, |z| z.replace('-', "00000000")),
        Shape::Uniform,
        "00000000 for an unused operand",
    ),
    (|t| fields(t, "ask", 1, |n| moved(n, -1)), Shape::Uniform, "lines numbered from 0"),
    (|t| fields(t, "step", 1, |n| moved(n, -1)), Shape::Uniform, "steps numbered from 0"),
    (|t| fields(t, "step", 6, str::to_lowercase), Shape::Uniform, "digits in lower case"),
    (|t| fields(t, "pair", 3, |f| f.replace('-', "")), Shape::Uniform, "nothing for no flags"),
    (|t| t.replace('\t', " "), Shape::Uniform, "spaces for tabs"),
    (|t| t.replace('\n', "\r\n"), Shape::Uniform, "carriage returns"),
    (flipped_question, Shape::Uniform, "the flipped y in a difference's question"),
    (asked_order, Shape::Branches, "the first line's operands not swapped"),
    (|t| fields(t, "pair", 3, reversed), Shape::Shaped, "flags in another order"),
    (|t| fields(t, "pair", 3, |f| f.replace("UX", "U")), Shape::Shaped, "U without X"),
    (|t| fields(t, "pair", 3, |f| f.replace("OX", "-")), Shape::Specials, "no flags at overflow"),
    (|t| fields(t, "pair", 3, |f| f.replace('I', "-")), Shape::Specials, "no I"),
    (|t| numbered(t, &["ask"]), Shape::Malformed, "a question's number without the bad lines"),
    (|t| numbered(t, &["bad"]), Shape::Malformed, "a bad line's number without the good ones"),
    (|t| fields(t, "bad", 2, |n| n.replace('3', "2")), Shape::Malformed, "2 where 3 should be"),
    (swapped_counts, Shape::Malformed, "good and bad counted in each other's place"),
    (|t| t.strip_suffix('\n').unwrap_or(t).to_string(), Shape::Ends, "no last newline"),
    (
        |t| if t.starts_with("total") { String::new() } else { t.to_string() },
        Shape::Ends,
        "nothing for nothing",
    ),
    (|t| t.replace("stop\t11\n", "bad\t32769\t1\nstop\t11\n"), Shape::Full, "stop one line late"),
    (stop_early, Shape::Full, "stop at line 32,768"),
    (
        |t| t.replace("stop\t11\n", "stop\t11\ntotal\t00000000\t00000000\nend\t32768\t0\n"),
        Shape::Full,
        "stop and a total",
    ),
    (
        |t| if t.ends_with("stop\t11\n") { "stop\t11\n".to_string() } else { t.to_string() },
        Shape::Full,
        "stop alone",
    ),
    (|t| t.replace("\t32768\t", "\t-32768\t"), Shape::Full, "a line's number in 16 bits"),
];

/// Lines of one kind, with one of their fields changed.
pub fn fields(text: &str, kind: &str, place: usize, changed: impl Fn(&str) -> String) -> String {
    lines(text, |fields| {
        if fields[0] == kind {
            fields[place] = changed(&fields[place]);
        }
    })
}

/// The same in the middle one of such lines only.
pub fn one(text: &str, kind: &str, place: usize, changed: impl Fn(&str) -> String) -> String {
    let middle = text.lines().filter(|line| line.starts_with(kind)).count() / 2;
    let mut met = 0;
    lines(text, |fields| {
        if fields[0] == kind {
            if met == middle {
                fields[place] = changed(&fields[place]);
            }
            met += 1;
        }
    })
}

/// Every line changed as fields.
pub fn lines(text: &str, mut change: impl FnMut(&mut Vec<String>)) -> String {
    let changed = text.lines().map(|line| {
        let mut fields: Vec<String> = line.split('\t').map(str::to_string).collect();
        change(&mut fields);
        fields.join("\t") + "\n"
    });
    changed.collect()
}

pub fn wrong_last(digits: &str) -> String {
    let last = if digits.ends_with('0') { '1' } else { '0' };
    format!("{}{last}", &digits[..digits.len() - 1])
}

/// In one field of the last step of each question of a way.
pub fn wrong_digit(text: &str, wanted: Way, place: usize) -> String {
    let all: Vec<&str> = text.lines().collect();
    let mut asked = None;
    let mut changed = String::new();
    for (i, line) in all.iter().enumerate() {
        if let Some(question) = line.strip_prefix("ask\t") {
            let (_, question) = question.split_once('\t').expect("a number and a question");
            asked = line::read(question.as_bytes()).ok();
        }
        let last = line.starts_with("step") && all.get(i + 1).is_some_and(|next| next.starts_with("pair"));
        if last && asked.map(way) == Some(wanted) {
            changed += &fields(line, "step", place, wrong_last);
        } else {
            changed += line;
            changed.push('\n');
        }
    }
    changed
}

fn moved(number: &str, by: i64) -> String {
    (number.parse::<i64>().expect("a number") + by).to_string()
}

fn reversed(flags: &str) -> String {
    flags.chars().rev().collect()
}

fn flipped_question(text: &str) -> String {
    lines(text, |fields| {
        if fields[0] == "ask" && fields[2] == "dif" {
            let y = pattern::read(&fields[4]).expect("a pattern");
            fields[4] = format!("{:08X}", y ^ SIGN);
        }
    })
}

/// The first step shows the operands as they are asked.
fn asked_order(text: &str) -> String {
    let mut asked: Option<Asked> = None;
    lines(text, |fields| {
        if fields[0] == "ask" {
            asked = line::read(fields[2..].join("\t").as_bytes()).ok();
        }
        if let (Some(q), "step", "1", "add") =
            (asked, fields[0].as_str(), fields[1].as_str(), fields[2].as_str())
        {
            let y = if q.operation.name() == "dif" { q.y ^ SIGN } else { q.y };
            (fields[3], fields[4]) = (format!("{:08X}", q.x), format!("{y:08X}"));
        }
    })
}

/// Lines of these kinds are numbered among themselves.
fn numbered(text: &str, kinds: &[&str]) -> String {
    let mut number = 0;
    lines(text, |fields| {
        if kinds.contains(&fields[0].as_str()) {
            number += 1;
            fields[1] = number.to_string();
        }
    })
}

fn swapped_counts(text: &str) -> String {
    lines(text, |fields| {
        if fields[0] == "end" {
            fields.swap(1, 2);
        }
    })
}

/// Where there are 32,768 lines, the last of them is not answered.
fn stop_early(text: &str) -> String {
    let last = [format!("\nask\t{MOST}\t"), format!("\nbad\t{MOST}\t")];
    match last.iter().find_map(|line| text.find(line.as_str())) {
        Some(place) => format!("{}\nstop\t11\n", &text[..place]),
        None => text.to_string(),
    }
}
