//! The files of question lines that the program is asked, by shape.
mod cancelling;
mod ends;
mod full;
mod lengths;
mod malformed;
mod zeros;

pub mod branches;
pub mod cuts;
pub mod drawn;

use super::line::Asked;
use crate::random::Random;
use cuts::Cuts;

/// All that the program reads, and how it is cut into writes.
pub struct File {
    pub about: String,
    pub bytes: Vec<u8>,
    pub cuts: Cuts,
}

impl File {
    fn new(about: impl Into<String>, bytes: Vec<u8>) -> File {
        File { about: about.into(), bytes, cuts: Cuts::Whole }
    }

    /// A line for each question, all of them ended.
    pub fn of_questions(about: impl Into<String>, questions: &[Asked]) -> File {
        File::new(about, questions.iter().flat_map(|asked| ended(asked.shown())).collect())
    }

    /// The same without the last newline.
    fn unended(mut self) -> File {
        assert_eq!(self.bytes.pop(), Some(b'\n'), "the last line is ended");
        self.about += ", without the last newline";
        self
    }
}

/// A line with its newline.
fn ended(line: impl Into<Vec<u8>>) -> Vec<u8> {
    let mut line = line.into();
    line.push(b'\n');
    line
}

#[derive(Clone, Copy, PartialEq, Eq, Debug)]
pub enum Shape {
    /// A question for every way through the rules of a sheet.
    Branches,
    /// Every pair of special patterns.
    Specials,
    /// Any patterns.
    Uniform,
    /// The shapes that the pairs are asked.
    Shaped,
    /// Lists whose totals cancel, or are as small or as large as can be.
    Cancelling,
    /// Lines of other lengths than 21, up to very long ones.
    Lengths,
    /// Lines of 21 bytes that are no questions, and nearly so.
    Malformed,
    /// How the input begins and ends: empty, empty lines, no last newline.
    Ends,
    /// 32,768 lines, and a few less or more.
    Full,
    /// Lists of minus zeros, and such with another zero among them.
    Zeros,
}

pub const SHAPES: [Shape; 10] = [
    Shape::Branches,
    Shape::Specials,
    Shape::Uniform,
    Shape::Shaped,
    Shape::Cancelling,
    Shape::Lengths,
    Shape::Malformed,
    Shape::Ends,
    Shape::Full,
    Shape::Zeros,
];

impl Shape {
    pub fn name(self) -> &'static str {
        match self {
            Shape::Branches => "branches",
            Shape::Specials => "specials",
            Shape::Uniform => "uniform",
            Shape::Shaped => "shaped",
            Shape::Cancelling => "cancelling",
            Shape::Lengths => "lengths",
            Shape::Malformed => "malformed",
            Shape::Ends => "ends",
            Shape::Full => "full",
            Shape::Zeros => "zeros",
        }
    }

    /// How many constructed files there are, before the random ones.
    fn constructed(self) -> u64 {
        match self {
            Shape::Branches => 1,
            Shape::Specials => drawn::SPECIAL_FILES,
            Shape::Uniform | Shape::Shaped => 0,
            Shape::Cancelling => cancelling::CONSTRUCTED,
            Shape::Lengths => lengths::CONSTRUCTED,
            Shape::Malformed => malformed::CONSTRUCTED,
            Shape::Ends => ends::CONSTRUCTED,
            Shape::Full => full::CONSTRUCTED,
            Shape::Zeros => zeros::CONSTRUCTED,
        }
    }

    /// Whether random files follow.
    fn has_random(self) -> bool {
        !matches!(self, Shape::Specials | Shape::Full)
    }

    fn construct(self, number: u64, r: &mut Random) -> File {
        match self {
            Shape::Branches => branches::every(),
            Shape::Specials => drawn::specials(number),
            Shape::Uniform | Shape::Shaped => unreachable!("nothing is constructed"),
            Shape::Cancelling => cancelling::constructed(number, r),
            Shape::Lengths => lengths::constructed(number, r),
            Shape::Malformed => malformed::constructed(number),
            Shape::Ends => ends::constructed(number),
            Shape::Full => full::constructed(number, r),
            Shape::Zeros => zeros::constructed(number),
        }
    }

    pub fn named(name: &str) -> Option<Shape> {
        SHAPES.into_iter().find(|shape| shape.name() == name)
    }

    fn draw(self, r: &mut Random) -> File {
        match self {
            Shape::Branches => branches::drawn(r),
            Shape::Uniform => drawn::uniform(r),
            Shape::Shaped => drawn::shaped(r),
            Shape::Cancelling => cancelling::drawn(r),
            Shape::Lengths => lengths::drawn(r),
            Shape::Malformed => malformed::drawn(r),
            Shape::Ends => ends::drawn(r),
            Shape::Zeros => zeros::drawn(r),
            Shape::Specials | Shape::Full => unreachable!("none is drawn"),
        }
    }
}

/// The files of one line of the report.
pub struct Source {
    pub shape: Shape,
    pub seed: u64,
    /// Random files, where the shape has such.
    pub files: u64,
}

impl Source {
    pub fn count(&self) -> u64 {
        self.shape.constructed() + if self.shape.has_random() { self.files } else { 0 }
    }

    pub fn file(&self, number: u64) -> File {
        let mut r = Random::stream(self.seed, &[500 + self.shape as u64, number]);
        let file = if number < self.shape.constructed() {
            self.shape.construct(number, &mut r)
        } else {
            self.shape.draw(&mut r)
        };
        File { cuts: Cuts::drawn(number, &mut r), ..file }
    }
}
