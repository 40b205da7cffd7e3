//! The worksheets that are marked, by shape.
mod claims;
mod disturbed;
mod faults;
mod lengths;
mod sheets;
mod walks;

use super::worksheet::Worksheet;
use crate::random::Random;

#[derive(Clone, Copy, PartialEq, Eq, Debug)]
pub enum Shape {
    /// Model sheets, with the two lines that claim their feet or alone.
    Sheets,
    /// True lines of any steps on any operands that are allowed.
    Walks,
    /// True lines whose last two come to the pair, or nearly.
    Claims,
    /// Model sheets with a word that is another.
    Disturbed,
    /// Worksheets cut at every word, under every sort of operation number.
    Lengths,
    /// True lines with one between them that is to be refused, or with two.
    Faults,
}

pub const SHAPES: [Shape; 6] =
    [Shape::Sheets, Shape::Walks, Shape::Claims, Shape::Disturbed, Shape::Lengths, Shape::Faults];

impl Shape {
    pub fn name(self) -> &'static str {
        match self {
            Shape::Sheets => "sheets",
            Shape::Walks => "walks",
            Shape::Claims => "claims",
            Shape::Disturbed => "disturbed",
            Shape::Lengths => "lengths",
            Shape::Faults => "faults",
        }
    }

    /// Worksheets of one chunk. Those that are made of one another are together.
    fn in_chunk(self) -> u64 {
        match self {
            Shape::Disturbed => disturbed::ABOUT,
            Shape::Lengths => lengths::ABOUT,
            _ => 512,
        }
    }
}

/// The worksheets of one line of the report, in chunks that threads share out.
pub struct Source {
    pub shape: Shape,
    pub seed: u64,
    /// About so many.
    pub count: u64,
}

impl Source {
    pub fn chunks(&self) -> u64 {
        self.count.div_ceil(self.shape.in_chunk())
    }

    pub fn worksheets(&self, chunk: u64) -> Vec<Worksheet> {
        let mut r = Random::stream(self.seed, &[640 + self.shape as u64, chunk]);
        let each = |one: fn(&mut Random) -> Worksheet, r: &mut Random| {
            (0..self.shape.in_chunk()).map(|_| one(r)).collect()
        };
        match self.shape {
            Shape::Sheets if chunk == 0 => sheets::of_every_way(),
            Shape::Sheets => each(sheets::worksheet, &mut r),
            Shape::Walks => each(walks::worksheet, &mut r),
            Shape::Claims => each(claims::worksheet, &mut r),
            Shape::Disturbed => disturbed::worksheets(chunk, &mut r),
            Shape::Lengths => lengths::worksheets(chunk, &mut r),
            Shape::Faults => each(faults::worksheet, &mut r),
        }
    }
}

/// One of these.
fn one_of<T: Copy>(all: &[T], r: &mut Random) -> T {
    all[r.within(0, all.len() as i32 - 1) as usize]
}
