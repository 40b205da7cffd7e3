//! Worksheets cut at every word, up to more than are marked, under operation numbers of every sort.
use super::one_of;
use crate::marking::model::{Marked, LINE, MOST};
use crate::marking::way::Way;
use crate::marking::worksheet::{Worksheet, MARK};
use crate::random::Random;
use crate::sheets::files::drawn;

/// Those of one way.
pub const ABOUT: u64 = 732;

/// The lines that are cut from.
const LINES: usize = MOST + 10;
/// Counts that are other counts in 8 or in 16 bits, and so many whole lines.
const LARGE: [usize; 5] = [1024 + 96, 1200, 65_536 + 96, 65_536 + 600, 66_000];
/// No line, one, the fewest, the most, one less and one more.
const ENDS: [usize; 6] = [0, 1, 2, MOST - 1, MOST, MOST + 1];
/// The first three are those of operations.
const NUMBERS: [u32; 11] = [1, 2, 3, 0, 4, 5, 7, 0x101, 0x0100_0001, 0x8000_0001, u32::MAX];

/// Of one way: every length under one number, and the ends of lines under each.
pub fn worksheets(chunk: u64, r: &mut Random) -> Vec<Worksheet> {
    let whole = whole(chunk, r);
    let mut all = Vec::new();
    for length in (0..=LINES * LINE).chain(LARGE) {
        let number = if r.once_in(4) { one_of(&NUMBERS, r) } else { whole.operation };
        all.push(cut(&whole, length, number));
    }
    for lines in ENDS {
        all.extend(NUMBERS.map(|number| cut(&whole, lines * LINE, number)));
    }
    all
}

/// In turn: true lines; a pair that is claimed again and again; lines of which one of the first meets 14, or
/// 15.
fn whole(chunk: u64, r: &mut Random) -> Worksheet {
    let mut way = Way::of(drawn::question(r));
    if chunk % 4 == 1 {
        let (first, second) = way.sheet();
        while way.lines.len() < LINES {
            way.claim(first, second);
        }
    } else {
        way.walk(LINES as i32, r);
    }
    let mut whole = way.handed_in(None);
    let line = whole.line_mut(r.within(0, 2) as usize);
    match chunk % 4 {
        2 => line[0] = 7,
        3 => line[MARK] = 7,
        _ => {}
    }
    whole
}

/// So many of the words; where there are more than it has, all again.
fn cut(whole: &Worksheet, length: usize, operation: u32) -> Worksheet {
    let words: Vec<u32> = whole.words.iter().copied().cycle().take(length).collect();
    let is_counted = length % LINE == 0 && (12..=600).contains(&length);
    let made = match operation {
        1..=3 if is_counted => None,
        1..=3 => Some(Marked::refused(13, 0)),
        _ => Some(Marked::refused(10, 0)),
    };
    Worksheet { operation, x: whole.x, y: whole.y, words, made }
}
