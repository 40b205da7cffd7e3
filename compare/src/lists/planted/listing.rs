//! Faults in lists: in what enters, in what the totals are given, and in what a replay refuses.
use crate::lists::book::enters;
use crate::lists::events::Shape;
use crate::lists::model::{Filled, LINE, UNMARKED, WORDS as SHEET};
use crate::lists::subject::{enter, Arrays, Lents, Question, Subject, TESTED};
use crate::lists::trial::Source;
use crate::pattern::{is_finite, magnitude, SIGN};
use crate::totals::model::{LENGTH, OLD_LENGTH, ZERO_SIGN};
use crate::totals::number::WORDS;
use crate::totals::subject::{add_pattern, Lent};

#[derive(Clone, Copy, PartialEq, Debug)]
pub enum Fault {
    RefusedEnters,
    InexactEnters,
    OneOfTheOther,
    FirstAlone,
    YNotFlipped,
    ProductAsTwo,
    LastLost,
    NoFill,
    NoMarks,
    UnmarkedEnters,
    ReplayTakesUnequal,
    ReplayTakesMore,
    ReplayTakesFewer,
    ReplayTakesUncleared,
    ReplayTakesLong,
    ReplayOrder,
    ReplayRefusalWrites,
    ReplayTakesOld,
    ReplayTakesOne,
    SecondStaysZero,
    SecondIsOne,
    FirstIsOne,
    FootLosesSign,
    ProductLosesSign,
    OthersWrite,
}

const EVENTS: Source = Source::Events(Shape::Random);
const CALL: Source = Source::Replayed(Shape::Random);

const ZERO_EVENTS: Source = Source::Events(Shape::Zeros);
const ZERO_CALL: Source = Source::Replayed(Shape::Zeros);

pub const FAULTS: [(Fault, Source, &str); 46] = [
    (Fault::RefusedEnters, Source::Events(Shape::Refused), "a refused question added"),
    (Fault::RefusedEnters, Source::Replayed(Shape::Refused), "a refused question added"),
    (Fault::InexactEnters, Source::Events(Shape::Tiny), "a product with X added"),
    (Fault::InexactEnters, Source::Replayed(Shape::Tiny), "a product with X added"),
    (Fault::OneOfTheOther, EVENTS, "one total given the other's terms"),
    (Fault::OneOfTheOther, CALL, "one total given the other's terms"),
    (Fault::FirstAlone, EVENTS, "the foot's first alone"),
    (Fault::FirstAlone, CALL, "the foot's first alone"),
    (Fault::YNotFlipped, EVENTS, "a difference's y not flipped"),
    (Fault::YNotFlipped, CALL, "a difference's y not flipped"),
    (Fault::ProductAsTwo, EVENTS, "a product's pair in place of the product"),
    (Fault::ProductAsTwo, CALL, "a product's pair in place of the product"),
    (Fault::LastLost, Source::Events(Shape::Cancelling), "a question lost"),
    (Fault::LastLost, Source::Replayed(Shape::Cancelling), "a question lost"),
    (Fault::LastLost, Source::Replayed(Shape::Long), "a question lost"),
    (Fault::NoFill, CALL, "sheets not filled"),
    (Fault::NoMarks, CALL, "sheets filled without marks"),
    (Fault::UnmarkedEnters, Source::Events(Shape::Refused), "a question of 65 words added"),
    (Fault::UnmarkedEnters, Source::Replayed(Shape::Refused), "a question of 65 words added"),
    (Fault::ReplayTakesUnequal, Source::RefusedReplays, "unequal arrays taken"),
    (Fault::ReplayTakesMore, Source::RefusedReplays, "32,769 questions taken"),
    (Fault::ReplayTakesFewer, Source::Replayed(Shape::Long), "32,768 questions refused"),
    (Fault::ReplayTakesUncleared, Source::RefusedReplays, "a total that is not cleared taken"),
    (Fault::ReplayTakesLong, Source::RefusedReplays, "a count above the words taken"),
    (Fault::ReplayOrder, Source::RefusedReplays, "104 before 103"),
    (Fault::ReplayRefusalWrites, Source::RefusedReplays, "a refused replay that writes"),
    (Fault::InexactEnters, Source::Replayed(Shape::Random), "a product with X added"),
    (Fault::ReplayTakesOld, Source::RefusedReplays, "a total of 21 zeros taken"),
    (Fault::ReplayTakesOne, Source::RefusedReplays, "a total with a last word of 1 taken"),
    (Fault::SecondStaysZero, ZERO_EVENTS, "the last word of the first total alone"),
    (Fault::SecondStaysZero, ZERO_CALL, "the last word of the first total alone"),
    (Fault::SecondIsOne, ZERO_EVENTS, "a last word of 1 in the second total"),
    (Fault::SecondIsOne, ZERO_CALL, "a last word of 1 in the second total"),
    (Fault::SecondIsOne, Source::Replayed(Shape::Long), "a last word of 1 in the second total"),
    (Fault::FirstIsOne, ZERO_EVENTS, "a last word of 1 in the first total"),
    (Fault::FirstIsOne, ZERO_CALL, "a last word of 1 in the first total"),
    (Fault::FootLosesSign, ZERO_EVENTS, "a foot's zeros without their sign"),
    (Fault::FootLosesSign, ZERO_CALL, "a foot's zeros without their sign"),
    (Fault::ProductLosesSign, ZERO_EVENTS, "a product of zeros without its sign"),
    (Fault::ProductLosesSign, ZERO_CALL, "a product of zeros without its sign"),
    (Fault::YNotFlipped, ZERO_EVENTS, "a difference's y not flipped"),
    (Fault::YNotFlipped, ZERO_CALL, "a difference's y not flipped"),
    (Fault::OthersWrite, ZERO_EVENTS, "a question that does not enter and writes the last words"),
    (Fault::OthersWrite, ZERO_CALL, "a question that does not enter and writes the last words"),
    (Fault::InexactEnters, ZERO_EVENTS, "a product with X added"),
    (Fault::InexactEnters, ZERO_CALL, "a product with X added"),
];

const CLEARED: [u32; LENGTH] = [0; LENGTH];

/// Cleared, but for the last word.
const ONE: [u32; LENGTH] = {
    let mut words = CLEARED;
    words[ZERO_SIGN] = 1;
    words
};

impl Fault {
    /// What a wrong caller or replay gives the totals.
    fn give(self, q: Question, sheet: &Filled, first: &mut [u32], second: &mut [u32]) -> u32 {
        let unmarked = self == Fault::UnmarkedEnters && sheet.refusal == 9 && q.lent as usize >= UNMARKED;
        let sheet = if unmarked { &filled(q, &mut Lent::new(&[0; SHEET])) } else { sheet };
        let entering = match self {
            Fault::RefusedEnters => sheet.refusal != 0 && is_finite(q.x) && is_finite(q.y) || enters(sheet),
            Fault::InexactEnters => sheet.refusal == 0 && is_finite(sheet.first),
            Fault::LastLost if first[WORDS] > 0 && sheet.first & 7 == 5 => false,
            _ => enters(sheet),
        };
        let refusal = if entering { self.enter(q, sheet, first, second) } else { 0 };
        self.spoil_last(entering, first, second);
        refusal
    }

    fn enter(self, q: Question, sheet: &Filled, first: &mut [u32], second: &mut [u32]) -> u32 {
        match self {
            Fault::OneOfTheOther => enter(q, sheet, second, first),
            Fault::FirstAlone => {
                let refusal = add_pattern(first, sheet.first);
                enter(q, sheet, &mut [0; LENGTH], second) | refusal
            }
            Fault::FootLosesSign => {
                let [one, other] =
                    [sheet.first, sheet.second].map(|half| if half == SIGN { 0 } else { half });
                enter(q, &Filled { first: one, second: other, ..*sheet }, first, second)
            }
            Fault::ProductLosesSign if q.operation == 3 && magnitude(sheet.first) == 0 => {
                enter(Question { x: magnitude(q.x), y: magnitude(q.y), ..q }, sheet, first, second)
            }
            Fault::YNotFlipped if q.operation == 2 => {
                enter(Question { y: q.y ^ SIGN, ..q }, sheet, first, second)
            }
            Fault::ProductAsTwo if q.operation == 3 => {
                enter(Question { operation: 1, x: sheet.first, y: sheet.second, ..q }, sheet, first, second)
            }
            Fault::RefusedEnters if sheet.refusal != 0 => {
                enter(q, sheet, first, second) | add_pattern(second, q.x)
            }
            _ => enter(q, sheet, first, second),
        }
    }

    /// The last words, after a question that entered or not.
    fn spoil_last(self, entered: bool, first: &mut [u32], second: &mut [u32]) {
        match self {
            Fault::SecondStaysZero => second[ZERO_SIGN] = 0,
            Fault::SecondIsOne if entered => second[ZERO_SIGN] = 1,
            Fault::FirstIsOne if entered => first[ZERO_SIGN] = 1,
            Fault::OthersWrite if !entered && first[WORDS] > 0 => {
                (first[ZERO_SIGN], second[ZERO_SIGN]) = (1, 1)
            }
            _ => {}
        }
    }

    fn replay(self, arrays: &Arrays, lents: &mut Lents) -> u32 {
        let count = arrays.operations.len();
        let totals = [lents.first.words(), lents.second.words()];
        let uncleared = totals.iter().any(|&words| words != CLEARED);
        let all_but = |other: &[u32]| totals.iter().all(|&words| words == CLEARED || words == other);
        let in_order = arrays.are_equal() && count <= 32_768;
        let long = arrays.counts.iter().any(|&count| count as usize > lents.words.words().len());
        match self {
            Fault::ReplayTakesFewer if count == 32_768 => return 102,
            Fault::ReplayTakesUnequal if !arrays.are_equal() => return 0,
            Fault::ReplayTakesMore if arrays.are_equal() && count > 32_768 => return 0,
            Fault::ReplayTakesUncleared if arrays.are_equal() && uncleared => return 0,
            Fault::ReplayTakesLong if arrays.are_equal() && long => return 0,
            Fault::ReplayOrder if in_order && long => return 104,
            Fault::ReplayTakesOld if in_order && uncleared && all_but(&CLEARED[..OLD_LENGTH]) => return 0,
            Fault::ReplayTakesOne if in_order && uncleared && all_but(&ONE) => return 0,
            _ => {}
        }
        self.given(arrays, lents)
    }

    /// A refused call, or the questions one after the other as the fault has it.
    fn given(self, arrays: &Arrays, lents: &mut Lents) -> u32 {
        let mut tried = Lents {
            words: Lent::new(lents.words.words()),
            first: Lent::new(lents.first.words()),
            second: Lent::new(lents.second.words()),
        };
        let refusal = TESTED.replay(arrays, &mut tried);
        if refusal != 0 {
            if self == Fault::ReplayRefusalWrites {
                lents.words.words_mut().iter_mut().take(1).for_each(|word| *word = 0);
            }
            return refusal;
        }
        for i in 0..arrays.operations.len() {
            let q = arrays.question(i);
            let mut lent = Lent::new(&lents.words.words()[..q.lent as usize]);
            let sheet = filled(q, &mut lent);
            if self == Fault::NoMarks && sheet.refusal == 0 {
                lent.words_mut()[..SHEET].chunks_mut(LINE).for_each(|line| line[LINE - 1] = 0);
            }
            if self != Fault::NoFill {
                lents.words.words_mut()[..q.lent as usize].copy_from_slice(lent.words());
            }
            self.give(q, &sheet, lents.first.words_mut(), lents.second.words_mut());
        }
        0
    }
}

/// The question's sheet, in these words.
fn filled(q: Question, lent: &mut Lent) -> Filled {
    TESTED.fill(q.operation, q.x, q.y, lent)
}

/// What is tested, with one fault in lists.
pub struct Planted(pub Fault);

impl Subject for Planted {
    fn fill(&self, operation: u32, x: u32, y: u32, lent: &mut Lent) -> Filled {
        TESTED.fill(operation, x, y, lent)
    }

    fn replay(&self, arrays: &Arrays, lents: &mut Lents) -> u32 {
        self.0.replay(arrays, lents)
    }

    fn give(&self, q: Question, sheet: &Filled, totals: &mut [Lent; 2]) -> u32 {
        let [first, second] = totals;
        self.0.give(q, sheet, first.words_mut(), second.words_mut())
    }
}
