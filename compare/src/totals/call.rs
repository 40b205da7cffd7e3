//! The calls on a total, and what they answer. Those that do not read answer a refusal alone, which stands here with two zeros.
pub use crate::library::Reading;

#[derive(Clone, Copy, PartialEq, Eq, Debug)]
pub enum Call {
    Clear,
    Pattern(u32),
    Product(u32, u32),
    Read,
}

impl Call {
    pub fn shown(self) -> String {
        match self {
            Call::Clear => "clear".to_string(),
            Call::Pattern(x) => format!("add pattern {x:08X}"),
            Call::Product(x, y) => format!("add product {x:08X} {y:08X}"),
            Call::Read => "read".to_string(),
        }
    }

    /// The patterns that an adding call is given.
    pub fn operands(self) -> Vec<u32> {
        match self {
            Call::Pattern(x) => vec![x],
            Call::Product(x, y) => vec![x, y],
            Call::Clear | Call::Read => Vec::new(),
        }
    }

    pub fn is_adding(self) -> bool {
        matches!(self, Call::Pattern(_) | Call::Product(..))
    }
}

/// A call, and which totals of several it is made on.
#[derive(Clone, Copy, PartialEq, Eq, Debug)]
pub enum Turn {
    On(usize, Call),
    /// The second is joined to the first, which is another.
    Join(usize, usize),
    /// The first, an old total, is carried over into the second, which is another.
    CarryOver(usize, usize),
    /// No call: the second becomes the first without its last word, as the build before request 4 would have stored it.
    AsOld(usize, usize),
}

impl Turn {
    pub fn shown(self) -> String {
        match self {
            Turn::On(_, call) => call.shown(),
            Turn::Join(..) => "join".to_string(),
            Turn::CarryOver(..) => "carry over".to_string(),
            Turn::AsOld(..) => "as an old total".to_string(),
        }
    }
}

impl Reading {
    pub const DONE: Reading = Reading::refused(0);

    pub const fn refused(refusal: u32) -> Reading {
        Reading { refusal, first: 0, second: 0 }
    }

    pub fn of(first: u32, second: u32) -> Reading {
        Reading { refusal: 0, first, second }
    }

    pub fn shown(self) -> String {
        format!("{} {:08X} {:08X}", self.refusal, self.first, self.second)
    }
}
