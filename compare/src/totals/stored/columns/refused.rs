//! Calls that are refused, and leave every word.
use super::{DOWN, OMEGA, SQUARE, UP};
use crate::pattern::{INFINITY, LARGEST, NAN, SIGN};
use crate::totals::call::Call;
use crate::totals::model::{Total, MOST, OLD_LENGTH};
use crate::totals::number::Number;
use crate::totals::stored::record::Column;

pub fn columns() -> Vec<Column> {
    let first = std::iter::once(not_finite());
    first.chain(lengths()).chain(unfit()).chain([full(), last_term()]).collect()
}

/// Infinities, quiet NaN and signalling NaN.
const BAD: [u32; 8] =
    [INFINITY, SIGN | INFINITY, NAN, SIGN | NAN, 0x7F80_0001, 0xFF80_0001, 0x7FFF_FFFF, 0xFFBF_FFFF];

const ONE: u32 = 0x3F80_0000;

/// Alone, and beside a number, a zero and another of them; between them terms that are taken.
fn not_finite() -> Column {
    let of = |bad: u32| {
        [
            Call::Pattern(bad),
            Call::Product(bad, ONE),
            Call::Product(SIGN | ONE, bad),
            Call::Product(bad, 0),
            Call::Product(SIGN, bad),
            Call::Product(bad, NAN),
        ]
    };
    let calls = BAD.into_iter().flat_map(|bad| std::iter::once(Call::Pattern(SIGN | ONE)).chain(of(bad)));
    Column::cleared("7: infinities and NaN, as patterns and as either factor", calls.collect())
}

/// Each kind of call, with good operands and with bad ones.
const CALLS: [Call; 5] =
    [Call::Pattern(ONE), SQUARE, Call::Pattern(INFINITY), Call::Product(0, NAN), Call::Clear];

/// Cleared words of other lengths, and such as would not fit. 277 is 21 in its lowest byte.
fn lengths() -> Vec<Column> {
    let lengths = [1, OLD_LENGTH - 1, OLD_LENGTH + 1, 256 + OLD_LENGTH];
    let zeros = lengths.map(|length| vec![0; length]);
    let ones = [OLD_LENGTH - 1, OLD_LENGTH + 1].map(|length| vec![u32::MAX; length]);
    let column = |words: Vec<u32>| {
        let shows = format!("5: a length of {}, whatever the call and the words", words.len());
        Column::new(shows, words, CALLS.to_vec())
    };
    zeros.into_iter().chain(ones).map(column).collect()
}

/// Clearing takes them, so each call is made on the words anew.
fn unfit() -> Vec<Column> {
    let (zero, one, least) = (Number::ZERO, Number::at(1, 0), Number::at(1, 639).opposite());
    let totals = [
        ("a number and no terms", one, 0),
        ("a negative number and no terms", one.opposite(), 0),
        ("a count of 65,537", zero, MOST + 1),
        ("a count of 2^32 - 1", one, u32::MAX),
        ("a large number and one term", Number::at(1, 600), 1),
        ("-2^639, and a count of 0", least, 0),
        ("-2^639, and a count of 65,536", least, MOST),
        ("2^639 - 1, and a count of 65,536", least.plus(&one).opposite(), MOST),
    ];
    let column = |(shows, number, count)| {
        let words = Total::new(number, count).old_words();
        Column::new(format!("6: {shows}, before 7 and 8"), words, CALLS.to_vec()).apart()
    };
    totals.map(column).to_vec()
}

/// 7 comes before 8; a total that is cleared takes terms again.
fn full() -> Column {
    let words = Total::new(Number::at(12_345, 290), MOST).old_words();
    let zero = [Call::Pattern(0), Call::Pattern(SIGN), Call::Product(0, 0)];
    let taken = [Call::Pattern(ONE), OMEGA, SQUARE, UP, DOWN];
    let bad = [Call::Pattern(INFINITY), Call::Product(LARGEST, SIGN | NAN), Call::Product(0x7F80_0001, 0)];
    let ending = [Call::Clear, Call::Pattern(ONE)];
    let calls = zero.into_iter().chain(taken).chain(bad).chain(ending).collect();
    Column::new("8: 65,536 terms, whatever the next is, but 7 before 8", words, calls)
}

fn last_term() -> Column {
    let words = Total::new(Number::at(12_345, 290).opposite(), MOST - 1).old_words();
    let calls = vec![Call::Pattern(NAN), Call::Pattern(ONE), Call::Pattern(ONE), Call::Pattern(NAN)];
    Column::new("the last term that is taken, and 8", words, calls)
}
