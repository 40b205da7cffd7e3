//! Faults in the order of refusals: a later condition that is tried before an earlier one.
use crate::sheets::files::{File, Shape};
use crate::sheets::line;
use crate::sheets::model::lines;

/// The refusal that a bad line is given wrongly, if it is.
pub type Order = fn(&[u8]) -> Option<u32>;

pub const FAULTS: [(Order, Shape, &str); 5] = [
    (|l| (!known(l)).then_some(2), Shape::Lengths, "2 before 1"),
    (|l| (l.len() > 12 && !tabbed(l)).then_some(3), Shape::Lengths, "3 before 1"),
    (|l| (l.len() == 21 && !tabbed(l)).then_some(3), Shape::Malformed, "3 before 2"),
    (|l| (l.len() == 21 && !digits(l)).then_some(4), Shape::Malformed, "4 before 2"),
    (|l| (l.len() == 21 && known(l) && !digits(l)).then_some(4), Shape::Malformed, "4 before 3"),
];

fn known(line: &[u8]) -> bool {
    matches!(line.get(..3), Some(b"sum" | b"dif" | b"mul"))
}

fn tabbed(line: &[u8]) -> bool {
    [3, 12].iter().all(|&place| line[place] == b'\t')
}

fn digits(line: &[u8]) -> bool {
    (4..12).chain(13..21).all(|place| matches!(line[place], b'0'..=b'9' | b'A'..=b'F'))
}

/// The text with each bad line's refusal as the fault has it.
pub fn reordered(file: &File, text: &str, order: Order) -> String {
    let mut bad = lines(&file.bytes).filter(|line| line::read(line).is_err());
    let changed = text.lines().map(|printed| {
        let Some(number) = printed.strip_prefix("bad\t") else { return format!("{printed}\n") };
        let refusal = bad.next().and_then(order);
        match (refusal, number.split_once('\t')) {
            (Some(refusal), Some((number, _))) => format!("bad\t{number}\t{refusal}\n"),
            _ => format!("{printed}\n"),
        }
    });
    changed.collect()
}
