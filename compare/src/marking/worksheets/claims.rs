//! True lines whose last two come to the pair, by the sheet or by another way, or nearly come to it.
use super::one_of;
use crate::marking::model::Marked;
use crate::marking::way::Way;
use crate::marking::worksheet::{Worksheet, RESULT};
use crate::pairs::pair::{Operation, OPERATIONS};
use crate::pattern::{exponent_field, fields, magnitude, SIGN};
use crate::random::Random;
use crate::sheets::files::drawn;
use crate::sheets::line::Asked;
use crate::step::{Question, Step};

/// The lines that lead to a claim, and what is known of it.
type Ending = fn(&mut Way, &mut Random) -> Option<Marked>;

const ENDINGS: [Ending; 12] = [
    by_sheet, by_sheet, exchanged, flipped, beside, twice, parted, followed, unlike, unfinished, operands,
    own,
];

pub fn worksheet(r: &mut Random) -> Worksheet {
    let asked = if r.once_in(3) { apart(r) } else { drawn::question(r) };
    let mut way = Way::of(asked);
    let before = if r.once_in(4) { r.within(0, 60) } else { r.within(0, 2) };
    way.walk(before, r);
    let made = one_of(&ENDINGS, r)(&mut way, r);
    way.handed_in(made)
}

/// Numbers so far apart that a sum's pair is its operands, or one of them and a zero.
fn apart(r: &mut Random) -> Asked {
    let high = r.within(30, 254);
    let low = r.within(0, high - 26);
    let x = fields(r.sign(), high, r.pattern());
    let y = if r.once_in(4) { r.sign() << 31 } else { fields(r.sign(), low, r.pattern()) };
    let (x, y) = if r.once_in(4) { (y, x) } else { (x, y) };
    Asked::new(one_of(&[Operation::Sum, Operation::Difference], r), x, y)
}

fn right_if(right: bool) -> Marked {
    Marked { right, ..Marked::RIGHT }
}

fn by_sheet(way: &mut Way, r: &mut Random) -> Option<Marked> {
    let (first, second) = way.sheet();
    way.walk(r.within(0, 3), r);
    way.claim(first, second);
    Some(Marked::RIGHT)
}

fn exchanged(way: &mut Way, _: &mut Random) -> Option<Marked> {
    let (first, second) = way.sheet();
    way.claim(second, first);
    Some(right_if(first == second))
}

/// The sign of one half, or of both: +0 for -0, too.
fn flipped(way: &mut Way, r: &mut Random) -> Option<Marked> {
    let (first, second) = way.sheet();
    let (one, other) = one_of(&[(SIGN, 0), (0, SIGN), (SIGN, SIGN)], r);
    way.claim(first ^ one, second ^ other);
    Some(Marked::NOT_RIGHT)
}

/// One half is its neighbour: a normal number times 1 - 2^-24, or what is less with 2^-149 more.
fn beside(way: &mut Way, r: &mut Random) -> Option<Marked> {
    let (first, second) = way.sheet();
    let moved = |way: &mut Way, half: u32| {
        if exponent_field(half) == 0 {
            way.line(Step::Add, Question::two(half, 1));
        } else {
            way.line(Step::Mul, Question::two(0x3F7F_FFFF, half));
        }
    };
    if r.once_in(2) {
        way.take(first);
        moved(way, second);
    } else {
        moved(way, first);
        way.take(second);
    }
    None
}

fn twice(way: &mut Way, r: &mut Random) -> Option<Marked> {
    let (first, second) = way.sheet();
    let half = if r.once_in(2) { first } else { second };
    way.claim(half, half);
    Some(right_if(first == second))
}

/// There are other lines between the two.
fn parted(way: &mut Way, r: &mut Random) -> Option<Marked> {
    let (first, second) = way.sheet();
    way.take(first);
    way.walk(r.within(1, 3), r);
    way.take(second);
    None
}

/// There are other lines after the two.
fn followed(way: &mut Way, r: &mut Random) -> Option<Marked> {
    let (first, second) = way.sheet();
    way.claim(first, second);
    way.walk(r.within(1, 3), r);
    None
}

/// What another operation comes to.
fn unlike(way: &mut Way, r: &mut Random) -> Option<Marked> {
    let (first, second) = way.sheet_of(one_of(&OPERATIONS, r));
    way.claim(first, second);
    None
}

/// Two results of the sheet, the first line's among them: what a step gives, and perhaps its rest.
fn unfinished(way: &mut Way, r: &mut Random) -> Option<Marked> {
    let from = way.lines.len();
    way.sheet();
    let any = r.within(from as i32, way.lines.len() as i32 - 1) as usize;
    way.claim(way.lines[from][RESULT], way.lines[any][RESULT]);
    None
}

/// The operands themselves, the larger first or not; for a difference y flipped.
fn operands(way: &mut Way, r: &mut Random) -> Option<Marked> {
    let Asked { operation, x, y } = way.asked;
    let y = if operation == Operation::Difference { y ^ SIGN } else { y };
    let is_larger = magnitude(y) > magnitude(x);
    let (first, second) = if is_larger && !r.once_in(4) { (y, x) } else { (x, y) };
    way.claim(first, second);
    None
}

/// Another way than the sheet's: a sum whose operands are not put in order, or a product and its rest.
fn own(way: &mut Way, _: &mut Random) -> Option<Marked> {
    let Asked { operation, x, y } = way.asked;
    if operation == Operation::Product {
        let a = way.line(Step::Mul, Question::two(x, y));
        way.line(Step::Fma, Question::three(x, y, a ^ SIGN));
        return None;
    }
    let y = if operation == Operation::Difference { y ^ SIGN } else { y };
    let a = way.line(Step::Add, Question::two(x, y));
    let of_x = way.line(Step::Sub, Question::two(a, y));
    let of_y = way.line(Step::Sub, Question::two(a, of_x));
    let left_of_x = way.line(Step::Sub, Question::two(x, of_x));
    let left_of_y = way.line(Step::Sub, Question::two(y, of_y));
    let rest = way.line(Step::Add, Question::two(left_of_x, left_of_y));
    way.claim(a, rest);
    None
}
