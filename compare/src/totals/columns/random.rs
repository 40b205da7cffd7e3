//! Columns of any calls, with a reading after each.
use super::terms::{self, Window};
use super::{read_after, Column};
use crate::random::Random;
use crate::totals::call::Call;

const CALLS: usize = 48;

pub fn column(r: &mut Random) -> Column {
    let window = terms::window(r);
    Column::cleared((0..CALLS).flat_map(|_| read_after(call(r, window))).collect())
}

fn call(r: &mut Random, window: Window) -> Call {
    match r.within(0, 31) {
        0 => Call::Clear,
        1 | 2 => terms::zero(r),
        3..=6 => terms::refused(r),
        7 => terms::term(r, terms::ANY),
        _ => terms::term(r, window),
    }
}
