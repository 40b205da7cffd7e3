//! Faults in filling a sheet.
use crate::lists::fills::{before, Shape};
use crate::lists::model::{operation, step_number, Filled, LINE, UNMARKED, WORDS};
use crate::lists::subject::{Arrays, Lents, Subject, TESTED};
use crate::pairs::pair::Flags;
use crate::pattern::{is_nan, NAN, SIGN};
use crate::planted::marks;
use crate::step::{self, Answer, STEPS};
use crate::totals::subject::Lent;

/// A fault in filling. The answer and the words are spoilt after a right call.
#[derive(Clone, Copy, Debug)]
pub enum Fault {
    Touches79th,
    TouchesLast,
    LeavesUnused,
    LeavesPast65,
    NineBeforeTen,
    NineToAll,
    Takes77,
    Takes65,
    TakesUnmarked,
    Takes0AsSum,
    Takes4AsProduct,
    RefusesMore,
    RefusedWrites,
    OneLineMore,
    Always13,
    FirstLineAlone,
    WrongResult,
    WrongThird,
    WrongOperation,
    NoFlags,
    SwappedFoot,
    RefusedAnswers,
    NanGoesOn,
    NanLosesPayload,
    NanNotFlipped,
    NanHalvesUnlike,
    NanOnLine4,
    /// Each line's mark as a step's fault has it.
    Marks(marks::Fault),
    NoMarks,
    WrongMark,
    MarkOfLineBefore,
    MarkOfNextLine,
    MarkFirst,
    UnusedMarks,
    LinesOfFive,
}

pub const FAULTS: [(Fault, Shape, &str); 63] = [
    (Fault::Touches79th, Shape::Good(1), "the 79th word written"),
    (Fault::TouchesLast, Shape::Good(2), "the last word written"),
    (Fault::LeavesUnused, Shape::Good(1), "unused words left"),
    (Fault::LeavesUnused, Shape::Good(3), "unused words left"),
    (Fault::LeavesPast65, Shape::Good(1), "unused words behind the 65th left"),
    (Fault::LeavesPast65, Shape::Good(3), "unused words behind the 65th left"),
    (Fault::NineBeforeTen, Shape::Refused, "9 before 10"),
    (Fault::NineToAll, Shape::Refused, "9 to everything"),
    (Fault::Takes77, Shape::Refused, "77 words taken"),
    (Fault::Takes65, Shape::Refused, "65 words taken"),
    (Fault::TakesUnmarked, Shape::Refused, "65 words and more taken, with lines of five"),
    (Fault::Takes0AsSum, Shape::Refused, "operation 0 taken"),
    (Fault::Takes4AsProduct, Shape::Refused, "operation 4 taken"),
    (Fault::RefusesMore, Shape::Good(3), "more than 78 words refused"),
    (Fault::RefusedWrites, Shape::Refused, "a refusal that writes"),
    (Fault::OneLineMore, Shape::Good(2), "a line more counted"),
    (Fault::Always13, Shape::Good(1), "13 lines always"),
    (Fault::FirstLineAlone, Shape::Good(3), "a true first line and idle others"),
    (Fault::WrongResult, Shape::Good(1), "a wrong result in the last line"),
    (Fault::WrongResult, Shape::Good(2), "a wrong result in the last line"),
    (Fault::WrongResult, Shape::Good(3), "a wrong result in the last line"),
    (Fault::WrongThird, Shape::Good(1), "an unused operand that is not 0"),
    (Fault::WrongOperation, Shape::Good(2), "add for subtract"),
    (Fault::NoFlags, Shape::Good(3), "no flags"),
    (Fault::SwappedFoot, Shape::Good(1), "first and second in each other's place"),
    (Fault::RefusedAnswers, Shape::Refused, "a refusal with a foot"),
    (Fault::NanGoesOn, Shape::Good(1), "a sheet that goes on after a NaN line 1"),
    (Fault::NanGoesOn, Shape::Good(3), "a sheet that goes on after a NaN line 1"),
    (Fault::NanLosesPayload, Shape::Good(1), "a NaN's payload lost"),
    (Fault::NanLosesPayload, Shape::Good(2), "a NaN's payload lost"),
    (Fault::NanLosesPayload, Shape::Good(3), "a NaN's payload lost"),
    (Fault::NanNotFlipped, Shape::Good(2), "a difference's NaN not flipped"),
    (Fault::NanHalvesUnlike, Shape::Good(3), "second 7FC00000 beside another NaN"),
    (Fault::NanOnLine4, Shape::Good(3), "7FC00000 on line 4 of u times an infinity"),
    (Fault::NoMarks, Shape::Good(1), "marks all 0"),
    (Fault::NoMarks, Shape::Good(2), "marks all 0"),
    (Fault::NoMarks, Shape::Good(3), "marks all 0"),
    (Fault::WrongMark, Shape::Good(1), "a wrong mark in the last line"),
    (Fault::WrongMark, Shape::Good(2), "a wrong mark in the last line"),
    (Fault::WrongMark, Shape::Good(3), "a wrong mark in the last line"),
    (Fault::MarkOfLineBefore, Shape::Good(1), "the mark of the line before"),
    (Fault::MarkOfLineBefore, Shape::Good(2), "the mark of the line before"),
    (Fault::MarkOfLineBefore, Shape::Good(3), "the mark of the line before"),
    (Fault::MarkOfNextLine, Shape::Good(1), "the mark of the next line"),
    (Fault::MarkFirst, Shape::Good(2), "the mark before the result"),
    (Fault::UnusedMarks, Shape::Good(1), "unused mark words not 0"),
    (Fault::UnusedMarks, Shape::Good(2), "unused mark words not 0"),
    (Fault::UnusedMarks, Shape::Good(3), "unused mark words not 0"),
    (Fault::LinesOfFive, Shape::Good(1), "lines of five words"),
    (Fault::LinesOfFive, Shape::Good(3), "lines of five words"),
    (Fault::Marks(marks::cancelled), Shape::Good(1), "1 for an exact zero"),
    (Fault::Marks(marks::cancelled), Shape::Good(3), "1 for an exact zero"),
    (Fault::Marks(marks::of_zeros), Shape::Good(2), "1 for a zero of zeros"),
    (Fault::Marks(marks::of_zeros), Shape::Good(3), "1 for a zero of zeros"),
    (Fault::Marks(marks::lost_to_zero), Shape::Good(3), "0 for what is rounded to zero"),
    (Fault::Marks(marks::exact_overflow), Shape::Good(1), "0 at overflow"),
    (Fault::Marks(marks::exact_overflow), Shape::Good(3), "0 at overflow"),
    (Fault::Marks(marks::short_overflow), Shape::Good(2), "0 at overflow of what has 24 bits"),
    (Fault::Marks(marks::exact_infinity), Shape::Good(1), "2 for NaN results alone"),
    (Fault::Marks(marks::rounded_infinity), Shape::Good(3), "2 for NaN results alone"),
    (Fault::Marks(marks::third_unseen), Shape::Good(3), "the third operand not looked at"),
    (Fault::Marks(marks::beside_zero), Shape::Good(1), "1 where a zero is added to a number far from it"),
    (Fault::Marks(marks::last_bit), Shape::Good(1), "exactness by the result's last bit"),
];

impl Fault {
    fn fill(self, number: u32, x: u32, y: u32, lent: &mut Lent) -> Filled {
        let length = lent.words().len();
        let known = operation(number).is_some();
        match self {
            Fault::NineBeforeTen if length < WORDS => return Filled::refused(9),
            Fault::NineToAll if known => return Filled::refused(9),
            Fault::RefusesMore if length > WORDS => return Filled::refused(9),
            Fault::Takes0AsSum if number == 0 => return TESTED.fill(1, x, y, lent),
            Fault::Takes4AsProduct if number == 4 => return TESTED.fill(3, x, y, lent),
            Fault::Takes77 if length == 77 && known => return Filled { lines: 6, ..Filled::refused(0) },
            Fault::Takes65 if length == UNMARKED && known => {
                return Filled { lines: 6, ..Filled::refused(0) }
            }
            Fault::TakesUnmarked if (UNMARKED..WORDS).contains(&length) && known => {
                return unmarked(number, x, y, lent)
            }
            _ => {}
        }
        let mut sheet = TESTED.fill(number, x, y, lent);
        if sheet.refusal == 0 {
            self.spoil(&mut sheet, lent.words_mut());
            self.spoil_marks(sheet.lines as usize, lent.words_mut());
        } else {
            self.spoil_refused(&mut sheet, lent.words_mut());
        }
        sheet
    }

    fn spoil(self, sheet: &mut Filled, words: &mut [u32]) {
        let last = LINE * sheet.lines as usize;
        match self {
            Fault::Touches79th if words.len() > WORDS => words[WORDS] = 0,
            Fault::TouchesLast if words.len() > WORDS => words[words.len() - 1] = 0,
            Fault::LeavesUnused => words[last..WORDS].copy_from_slice(&before(WORDS as u32)[last..]),
            Fault::LeavesPast65 => {
                let left = last.max(UNMARKED);
                words[left..WORDS].copy_from_slice(&before(WORDS as u32)[left..]);
            }
            Fault::OneLineMore => sheet.lines += 1,
            Fault::Always13 => sheet.lines = 13,
            Fault::FirstLineAlone => words[LINE..WORDS].fill(0),
            Fault::WrongResult => words[last - 2] ^= 1,
            Fault::WrongThird if words[0] != 4 => words[3] = words[1],
            Fault::WrongOperation => {
                words.iter_mut().take(WORDS).step_by(LINE).for_each(|w| *w = (*w).min(1))
            }
            Fault::NoFlags => sheet.flags = Flags::NONE,
            Fault::SwappedFoot => (sheet.first, sheet.second) = (sheet.second, sheet.first),
            Fault::NanOnLine4 if words[21..23] == [SIGN | NAN; 2] => words[22] = NAN,
            _ if is_nan(sheet.first) => self.spoil_nan(sheet, words),
            _ => {}
        }
    }

    /// Line 1 is NaN, and so is the foot.
    fn spoil_nan(self, sheet: &mut Filled, words: &mut [u32]) {
        let (x, y, nan) = (words[1], words[2], sheet.first);
        match self {
            Fault::NanGoesOn => {
                words[LINE..2 * LINE].copy_from_slice(&[2, nan, x, 0, nan, 2]);
                sheet.lines = 2;
            }
            Fault::NanLosesPayload => (words[4], sheet.first, sheet.second) = (NAN, NAN, NAN),
            Fault::NanNotFlipped if !is_nan(x) && is_nan(y) => {
                let own = nan ^ SIGN;
                (words[4], sheet.first, sheet.second) = (own, own, own);
            }
            Fault::NanHalvesUnlike => sheet.second = NAN,
            _ => {}
        }
    }

    /// Of the lines, and of the words that they leave unused.
    fn spoil_marks(self, lines: usize, words: &mut [u32]) {
        let marks: Vec<u32> = words[..WORDS].chunks(LINE).map(|line| line[LINE - 1]).collect();
        for (i, line) in words[..WORDS].chunks_mut(LINE).enumerate() {
            let used = i < lines;
            match self {
                Fault::NoMarks => line[LINE - 1] = 0,
                Fault::WrongMark if i + 1 == lines => line[LINE - 1] ^= 1,
                Fault::MarkOfLineBefore if used => line[LINE - 1] = if i == 0 { 0 } else { marks[i - 1] },
                Fault::MarkOfNextLine if used => line[LINE - 1] = marks[(i + 1) % lines],
                Fault::MarkFirst => line.swap(LINE - 2, LINE - 1),
                Fault::UnusedMarks if !used => line[LINE - 1] = 1,
                Fault::Marks(fault) if used => line[LINE - 1] = marked(line, fault),
                _ => {}
            }
        }
        if let Fault::LinesOfFive = self {
            in_fives(words);
        }
    }

    fn spoil_refused(self, sheet: &mut Filled, words: &mut [u32]) {
        match self {
            Fault::RefusedWrites => words.iter_mut().take(1).for_each(|word| *word = 0),
            Fault::RefusedAnswers => sheet.lines = 1,
            _ => {}
        }
    }
}

/// A line's mark, as a fault of steps has it.
fn marked(line: &[u32], fault: marks::Fault) -> u32 {
    let &[number, x, y, z, result, mark] = line else { unreachable!("a line has six words") };
    let step = STEPS.into_iter().find(|&step| step_number(step) == number).expect("a step");
    fault(step, step::Question { x, y, z }, Answer { result, mark })
}

/// The lines without their marks, one behind the other, and zeros.
fn in_fives(words: &mut [u32]) {
    let mut kept: Vec<u32> = words[..WORDS].chunks(LINE).flat_map(|line| line[..LINE - 1].to_vec()).collect();
    kept.resize(WORDS, 0);
    words[..WORDS].copy_from_slice(&kept);
}

/// As before lines had marks: 65 words were enough.
fn unmarked(number: u32, x: u32, y: u32, lent: &mut Lent) -> Filled {
    let mut whole = Lent::new(&[0; WORDS]);
    let sheet = TESTED.fill(number, x, y, &mut whole);
    in_fives(whole.words_mut());
    lent.words_mut()[..UNMARKED].copy_from_slice(&whole.words()[..UNMARKED]);
    sheet
}

/// What is tested, with one fault in filling.
pub struct Planted(pub Fault);

impl Subject for Planted {
    fn fill(&self, operation: u32, x: u32, y: u32, lent: &mut Lent) -> Filled {
        self.0.fill(operation, x, y, lent)
    }

    fn replay(&self, arrays: &Arrays, lents: &mut Lents) -> u32 {
        TESTED.replay(arrays, lents)
    }
}
