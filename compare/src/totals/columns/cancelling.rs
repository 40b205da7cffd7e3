//! Columns that come back to zero: terms and their opposites.
use super::terms::{self, Window};
use super::{read_after, shuffled, Column};
use crate::random::Random;
use crate::totals::call::Call;
use crate::totals::model::MOST;

/// Where the opposites stand.
#[derive(Clone, Copy)]
pub enum Order {
    /// Each behind its term.
    Next,
    /// Behind all terms, in the same order.
    Same,
    /// Behind all terms, the last one first.
    Reversed,
    /// All in any order.
    Shuffled,
}

pub const ORDERS: [Order; 4] = [Order::Next, Order::Same, Order::Reversed, Order::Shuffled];

/// As many as a total takes.
pub fn long(order: Order, r: &mut Random) -> Column {
    let calls = column(order, MOST as usize / 2, terms::ANY, r);
    let with_readings = |(i, call)| if i % 16 == 0 { read_after(call).to_vec() } else { vec![call] };
    let mut calls: Vec<Call> = calls.into_iter().enumerate().flat_map(with_readings).collect();
    calls.push(Call::Read);
    Column::cleared(calls)
}

/// A few, with a reading after each.
pub fn short(r: &mut Random) -> Column {
    let order = ORDERS[r.within(0, 3) as usize];
    let (count, window) = (r.within(1, 16) as usize, terms::window(r));
    Column::cleared(column(order, count, window, r).into_iter().flat_map(read_after).collect())
}

fn column(order: Order, count: usize, window: Window, r: &mut Random) -> Vec<Call> {
    let terms: Vec<Call> = (0..count).map(|_| terms::term(r, window)).collect();
    let opposites = terms.iter().map(|&term| terms::opposite(term));
    match order {
        Order::Next => terms.iter().flat_map(|&term| [term, terms::opposite(term)]).collect(),
        Order::Same => terms.iter().copied().chain(opposites).collect(),
        Order::Reversed => terms.iter().copied().chain(opposites.rev()).collect(),
        Order::Shuffled => shuffled(terms.iter().copied().chain(opposites).collect(), r),
    }
}
