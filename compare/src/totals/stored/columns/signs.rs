//! Terms of either sign in turn.
use super::{MINUS_OMEGA, MINUS_SQUARE, OMEGA, SQUARE};
use crate::totals::call::Call;
use crate::totals::columns::terms::{opposite, power, HIGHEST_PRODUCT};
use crate::totals::stored::record::Column;

pub fn columns() -> Vec<Column> {
    let upwards: Vec<Call> = (0..=HIGHEST_PRODUCT).step_by(23).map(power).collect();
    let downwards: Vec<Call> = upwards.iter().rev().copied().collect();
    vec![
        Column::cleared("the largest pattern and its opposite", vec![OMEGA, MINUS_OMEGA, MINUS_OMEGA, OMEGA]),
        Column::cleared(
            "the largest product and its opposite",
            vec![SQUARE, MINUS_SQUARE, MINUS_SQUARE, SQUARE],
        ),
        Column::cleared(
            "the largest product, and the largest pattern taken away",
            [SQUARE, MINUS_OMEGA].repeat(4),
        ),
        Column::cleared("1, and a unit more than 1 taken away", [ONE, MORE].repeat(6)),
        Column::cleared("powers of two upwards, with either sign in turn", in_turn(upwards)),
        Column::cleared("powers of two downwards, with either sign in turn", in_turn(downwards)),
    ]
}

const ONE: Call = Call::Pattern(0x3F80_0000);
const MORE: Call = Call::Product(0xBF80_0001, 0x3F80_0000);

fn in_turn(terms: Vec<Call>) -> Vec<Call> {
    let signed = |(i, term): (usize, Call)| if i.is_multiple_of(2) { term } else { opposite(term) };
    terms.into_iter().enumerate().map(signed).collect()
}
