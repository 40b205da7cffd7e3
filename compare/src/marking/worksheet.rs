//! What a candidate hands in: a question, and the words of the lines.
use super::model::{Marked, LINE};

/// The step's number, three operands, the result and its mark.
pub type Line = [u32; LINE];

/// Where in a line the third operand stands, the result and the mark.
pub const THIRD: usize = 3;
pub const RESULT: usize = 4;
pub const MARK: usize = 5;

#[derive(Clone)]
pub struct Worksheet {
    /// Its number, which may be none.
    pub operation: u32,
    pub x: u32,
    pub y: u32,
    pub words: Vec<u32>,
    /// What has to come of it by the way that it was made, whatever the model says.
    pub made: Option<Marked>,
}

/// Words that are printed of a worksheet: one of a hundred lines has more than anyone reads.
const PRINTED: usize = 16 * LINE;

impl Worksheet {
    /// A line that it has, counted from 0.
    pub fn line(&self, line: usize) -> &[u32] {
        &self.words[line * LINE..][..LINE]
    }

    /// The results of all whole lines.
    pub fn results(&self) -> impl DoubleEndedIterator<Item = u32> + '_ {
        self.words.chunks_exact(LINE).map(|line| line[RESULT])
    }

    pub fn line_mut(&mut self, line: usize) -> &mut [u32] {
        &mut self.words[line * LINE..][..LINE]
    }

    /// A line more, before that of this number.
    pub fn insert(&mut self, at: usize, line: Line) {
        self.words.splice(at * LINE..at * LINE, line);
    }

    pub fn shown(&self) -> String {
        let Worksheet { operation, x, y, words, .. } = self;
        let first: Vec<String> = words.iter().take(PRINTED).map(|word| format!("{word:X}")).collect();
        let more = if words.len() > PRINTED { " .." } else { "" };
        format!("operation {operation} {x:08X} {y:08X}, {} words: {}{more}", words.len(), first.join(" "))
    }
}
