//! Model sheets: with two lines that add 80000000 to first and to second, which have to be right, or alone.
use crate::marking::model::Marked;
use crate::marking::way::Way;
use crate::marking::worksheet::Worksheet;
use crate::random::Random;
use crate::sheets::files::{branches, drawn};
use crate::sheets::line::Asked;

/// One for every way through the rules of a sheet, claimed and alone.
pub fn of_every_way() -> Vec<Worksheet> {
    branches::questions().into_iter().flat_map(|asked| [claimed(asked), alone(asked)]).collect()
}

pub fn worksheet(r: &mut Random) -> Worksheet {
    let asked = drawn::question(r);
    if r.once_in(4) {
        alone(asked)
    } else {
        claimed(asked)
    }
}

pub fn claimed(asked: Asked) -> Worksheet {
    let mut way = Way::of(asked);
    let (first, second) = way.sheet();
    way.claim(first, second);
    way.handed_in(Some(Marked::RIGHT))
}

/// The last two lines are whatever they are; there may be one only.
fn alone(asked: Asked) -> Worksheet {
    let mut way = Way::of(asked);
    way.sheet();
    way.handed_in(None)
}
