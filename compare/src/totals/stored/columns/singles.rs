//! Single terms, from every place that a term can start at: every starting word, and every shift within a word.
use super::{full, HIGHEST};
use crate::pattern::{exact, fields, FRACTION};
use crate::totals::call::Call;
use crate::totals::columns::terms::{opposite, power, HIGHEST_PRODUCT};
use crate::totals::stored::record::Column;

pub fn columns() -> Vec<Column> {
    let apart = |shows: &str, terms: Vec<Call>| Column::cleared(shows, terms).apart();
    vec![
        apart("every power of two as a pattern, from 2^-149 to 2^127", powers(0)),
        apart("the opposites of these", powers(1)),
        apart("a pattern of 24 ones for every exponent", ones(0)),
        apart("the opposites of these", ones(1)),
        apart("a product of 48 bits that starts at every place, from 2^-298 to 2^208", products()),
        apart("negative products of 48 bits from all the places, of factors far apart", far_apart()),
        apart(
            "every third power of two as a product, from 2^-298 to 2^254, with either sign in turn",
            thirds(),
        ),
    ]
}

fn powers(sign: u32) -> Vec<Call> {
    (-149..=127).filter_map(|exponent| exact(sign, 1, exponent)).map(Call::Pattern).collect()
}

fn ones(sign: u32) -> Vec<Call> {
    (1..=254).map(|exponent| Call::Pattern(fields(sign, exponent, FRACTION))).collect()
}

fn products() -> Vec<Call> {
    (0..=HIGHEST).map(|place| full(place, place / 2)).collect()
}

/// The first factor has all places that it can have.
fn far_apart() -> Vec<Call> {
    (0..=HIGHEST).map(|place| opposite(full(place, place.min(HIGHEST / 2)))).collect()
}

/// A third of them has every shift in a third of the words.
fn thirds() -> Vec<Call> {
    let places = (0..=HIGHEST_PRODUCT).step_by(3).enumerate();
    places.map(|(i, place)| if i.is_multiple_of(2) { power(place) } else { opposite(power(place)) }).collect()
}
