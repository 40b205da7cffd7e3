//! How an input is cut into writes, so that the program's reads end in the midst of a line, and anywhere else.
use crate::random::Random;

#[derive(Clone, Copy, Debug)]
pub enum Cuts {
    /// One write.
    Whole,
    /// Writes of so many bytes.
    Every(usize),
    /// Writes of sizes that a stream of this seed says.
    Mixed(u64),
}

/// Beside a line's length, a page's and a block's.
const SIZES: [usize; 9] = [1, 7, 21, 22, 23, 4095, 65_536, 65_537, 131_072];

/// From this write on sizes are large: a long input is not written byte by byte to its end.
const SMALL_WRITES: usize = 3000;

impl Cuts {
    /// One file after the other takes the sizes in turn, and every other one a mixture.
    pub fn drawn(number: u64, r: &mut Random) -> Cuts {
        if number % 2 == 0 {
            Cuts::Every(SIZES[(number / 2) as usize % SIZES.len()])
        } else {
            Cuts::Mixed(r.next())
        }
    }

    pub fn shown(self) -> String {
        match self {
            Cuts::Whole => "in one write".to_string(),
            Cuts::Every(size) => format!("in writes of {size}"),
            Cuts::Mixed(seed) => format!("in writes of mixed sizes, {seed:X}"),
        }
    }

    pub fn portions(self) -> Portions {
        let seed = if let Cuts::Mixed(seed) = self { seed } else { 0 };
        Portions { cuts: self, r: Random::stream(seed, &[501]), written: 0 }
    }
}

/// The writes of one input in turn.
pub struct Portions {
    cuts: Cuts,
    r: Random,
    written: usize,
}

impl Portions {
    pub fn size(&mut self) -> usize {
        self.written += 1;
        let size = match self.cuts {
            Cuts::Whole => usize::MAX,
            Cuts::Every(size) => size,
            Cuts::Mixed(_) if self.r.once_in(2) => SIZES[self.r.within(0, SIZES.len() as i32 - 1) as usize],
            Cuts::Mixed(_) => self.r.within(1, 300) as usize,
        };
        if self.written > SMALL_WRITES {
            size.max(50_000)
        } else {
            size
        }
    }

    /// Now and then the writer waits, so that the program has read what was written. The first writes are the
    /// likeliest to be read one by one.
    pub fn pauses(&mut self) -> bool {
        let often = if self.written < 16 { 2 } else { 128 };
        self.written < SMALL_WRITES && self.r.once_in(often)
    }
}
