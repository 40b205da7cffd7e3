//! Totals at the limit of what fits: a magnitude of count * 2^554.
use super::damaged::EVERY_CALL;
use super::{apart, Column};
use crate::totals::model::{Total, BOUND, MOST};
use crate::totals::number::Number;

pub const COUNTS: [u32; 10] = [0, 1, 2, 3, 255, 256, 32_768, MOST - 1, MOST, MOST + 1];

pub fn constructed(count: u32) -> Vec<Column> {
    totals(count).iter().flat_map(|total| apart(&total.words(), &EVERY_CALL)).collect()
}

/// The limit for so many terms, of both signs; on either side of it, by every power of two.
pub fn totals(count: u32) -> Vec<Total> {
    let limit = Number::at(u64::from(count), BOUND);
    let beside = (0..638).map(|place| Number::at(1, place));
    let numbers = beside.flat_map(|by| [limit.plus(&by), limit.minus(&by)]).chain([limit]);
    let both = numbers.flat_map(|number| [number, number.opposite()]);
    both.map(|number| Total::new(number, count)).collect()
}
