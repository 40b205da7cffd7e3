//! A model sheet with the two lines that claim its foot, and worksheets that are other than it in one word.
use super::sheets::claimed;
use crate::marking::model::LINE;
use crate::marking::worksheet::{Worksheet, RESULT};
use crate::pattern::SIGN;
use crate::random::Random;
use crate::sheets::files::{branches, drawn};

/// There are about so many of one sheet, which has three lines to fifteen.
pub const ABOUT: u64 = 3000;

/// Of one sheet: a way through the rules or, every other time, any question.
pub fn worksheets(chunk: u64, r: &mut Random) -> Vec<Worksheet> {
    let ways = branches::questions();
    // 37 has no factor in common with their number: each way comes, and neighbours of the table are apart.
    let way = ways[chunk as usize / 2 * 37 % ways.len()];
    let asked = if chunk % 2 == 0 { way } else { drawn::question(r) };
    let sheet = claimed(asked);
    let mut all = of_another_question(&sheet);
    for at in 0..sheet.words.len() {
        let word = sheet.words[at];
        let others = others(&sheet, at).into_iter().filter(|&other| other != word);
        let changed = (0..32).map(|bit| word ^ 1 << bit).chain(others);
        all.extend(changed.map(|changed| with(&sheet, at, changed)));
    }
    all.push(sheet);
    all
}

fn with(sheet: &Worksheet, at: usize, word: u32) -> Worksheet {
    let mut disturbed = Worksheet { made: None, ..sheet.clone() };
    disturbed.words[at] = word;
    disturbed
}

/// What stands elsewhere, results of the lines before and behind, step numbers and marks, good or not, and a
/// neighbour of a constant.
fn others(sheet: &Worksheet, at: usize) -> Vec<u32> {
    let (line, last) = (at / LINE, sheet.words.len() / LINE - 1);
    let near =
        [line.saturating_sub(1), line, (line + 1).min(last), last].map(|line| sheet.line(line)[RESULT]);
    let here = sheet.line(line)[..RESULT].iter().copied();
    let asked = [sheet.x, sheet.y, sheet.x ^ SIGN, sheet.y ^ SIGN];
    let fixed = [0, 1, 2, 3, 4, 5, u32::MAX, SIGN, 0x4000_0000, 0x4000_0001];
    here.chain(near).chain(asked).chain(fixed).collect()
}

/// The same lines for another question: an operation, or a bit of an operand.
fn of_another_question(sheet: &Worksheet) -> Vec<Worksheet> {
    let plain = Worksheet { made: None, ..sheet.clone() };
    let operations = (0..6).map(|operation| Worksheet { operation, ..plain.clone() });
    let xs = (0..32).map(|bit| Worksheet { x: sheet.x ^ 1 << bit, ..plain.clone() });
    let ys = (0..32).map(|bit| Worksheet { y: sheet.y ^ 1 << bit, ..plain.clone() });
    operations.chain(xs).chain(ys).collect()
}
