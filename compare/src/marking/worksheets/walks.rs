//! True lines of any steps on any operands that are allowed: nothing is refused, and few come to the pair.
use super::one_of;
use crate::marking::model::{FEWEST, MOST};
use crate::marking::way::Way;
use crate::marking::worksheet::Worksheet;
use crate::random::Random;
use crate::sheets::files::drawn;

pub fn worksheet(r: &mut Random) -> Worksheet {
    let mut way = Way::of(drawn::question(r));
    way.walk(lines(r), r);
    way.handed_in(None)
}

/// Mostly as many as a sheet has, then anything up to the most, and the very ends.
fn lines(r: &mut Random) -> i32 {
    let (fewest, most) = (FEWEST as i32, MOST as i32);
    match r.within(0, 7) {
        0 => one_of(&[fewest, most - 1, most], r),
        1 => r.within(fewest, most),
        _ => r.within(fewest, 15),
    }
}
