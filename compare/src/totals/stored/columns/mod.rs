//! The columns that are stored, edges first. They have a fixed list and seed: the file has to be what they come to.
mod carries;
mod limits;
mod long;
mod mixed;
mod readings;
mod refused;
mod signs;
mod singles;
mod small;

use super::record::Column;
use crate::pattern::{fields, FRACTION, LARGEST, SIGN};
use crate::totals::call::Call;

pub fn all() -> Vec<Column> {
    let columns = [
        singles::columns(),
        carries::columns(),
        small::columns(),
        limits::columns(),
        refused::columns(),
        readings::columns(),
        signs::columns(),
        mixed::columns(),
        // Those with most calls last: a fault is found before them.
        long::columns(),
    ];
    columns.concat()
}

/// The lowest place of the largest product, and so the highest that a term can start at.
const HIGHEST: u32 = 506;

/// A product of 48 bits, of all ones in both factors, that starts at a place. So many of the places are the first factor's.
fn full(place: u32, first: u32) -> Call {
    let factor = |raised: u32| fields(0, raised as i32 + 1, FRACTION);
    Call::Product(factor(first), factor(place - first))
}

/// The least term that there is, and its opposite.
const UP: Call = Call::Product(1, 1);
const DOWN: Call = Call::Product(SIGN | 1, 1);

/// The largest terms.
const OMEGA: Call = Call::Pattern(LARGEST);
const MINUS_OMEGA: Call = Call::Pattern(SIGN | LARGEST);
const SQUARE: Call = Call::Product(LARGEST, LARGEST);
const MINUS_SQUARE: Call = Call::Product(LARGEST, SIGN | LARGEST);
