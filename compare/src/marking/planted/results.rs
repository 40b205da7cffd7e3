//! Faults in the steps of lines: their numbers, what they come to, and whether a result and a mark are those.
use super::rules::{Rules, RIGHT};
use super::Row;
use crate::marking::worksheets::Shape;
use crate::pattern::{is_nan, magnitude, NAN, SIGN};
use crate::planted::marks;
use crate::step::{Answer, Question, Step};

pub const FAULTS: [Row; 30] = [
    (by_number(|number| step(number.max(1))), Shape::Faults, "step 0 taken for add"),
    (by_number(|number| step(number - u32::from(number == 5))), Shape::Faults, "step 5 taken for fma"),
    (by_number(|number| step(number & 0xFF)), Shape::Faults, "a step's low byte alone looked at"),
    (by_number(|number| step(number & 0xFF)), Shape::Disturbed, "a step's low byte alone looked at"),
    (by_number(|number| step(number).filter(|&step| step != Step::Fma)), Shape::Sheets, "fma not taken"),
    (by_number(|number| step([0, 2, 1, 3, 4, 5][number.min(5) as usize])), Shape::Sheets, "add for sub"),
    (by_agreement(|given, right| given.mark == right.mark), Shape::Disturbed, "a result not looked at"),
    (by_agreement(|given, right| given.mark == right.mark), Shape::Faults, "a result not looked at"),
    (by_agreement(|given, right| given.result == right.result), Shape::Disturbed, "a mark not looked at"),
    (by_agreement(|given, right| given.result == right.result), Shape::Faults, "a mark not looked at"),
    (by_agreement(|given, right| marked(given, right, |mark| mark.min(1))), Shape::Faults, "mark 1 for 2"),
    (by_agreement(|given, right| marked(given, right, |mark| mark & !2)), Shape::Faults, "mark 0 for 2"),
    (
        by_agreement(|given, right| marked(given, right, |mark| mark & 0xFF)),
        Shape::Faults,
        "a mark's low byte alone looked at",
    ),
    (by_agreement(|given, right| resulted(given, right, one_zero)), Shape::Faults, "+0 and -0 one result"),
    (by_agreement(|given, right| resulted(given, right, one_nan)), Shape::Faults, "every NaN one result"),
    (
        by_agreement(|given, right| resulted(given, right, magnitude)),
        Shape::Faults,
        "a result's sign not looked at",
    ),
    (
        by_agreement(|given, right| resulted(given, right, |x| x & !1)),
        Shape::Faults,
        "a result's last bit not looked at",
    ),
    (
        by_agreement(|given, right| given == right && !is_nan(given.result)),
        Shape::Sheets,
        "no NaN is a result",
    ),
    (by_answer(|step, q| with_mark(step, q, |_, _, right| right.mark & !2)), Shape::Sheets, "no mark 2"),
    (by_answer(|step, q| with_mark(step, q, |_, _, right| right.mark & !1)), Shape::Sheets, "no mark 1"),
    (by_answer(|step, q| with_mark(step, q, marks::cancelled)), Shape::Sheets, "1 for an exact zero"),
    (
        by_answer(|step, q| with_mark(step, q, marks::lost_to_zero)),
        Shape::Walks,
        "0 for what is rounded to zero",
    ),
    (by_answer(|step, q| with_mark(step, q, marks::exact_overflow)), Shape::Walks, "0 at overflow"),
    (
        by_answer(|step, q| with_mark(step, q, marks::third_unseen)),
        Shape::Walks,
        "fma's third not looked at for a mark",
    ),
    (
        by_answer(|step, q| with_mark(step, q, marks::last_bit)),
        Shape::Walks,
        "exactness by the result's last bit",
    ),
    (by_answer(|step, q| with_result(step, q, one_nan)), Shape::Walks, "every NaN result 7FC00000"),
    (by_answer(|step, q| with_result(step, q, one_zero)), Shape::Walks, "every zero result +0"),
    (by_answer(|step, q| with_result(step, q, |x| x & !1)), Shape::Walks, "a result's last bit lost"),
    (by_answer(flipped_nan), Shape::Walks, "a NaN that is subtracted flipped"),
    (by_answer(rounded_twice), Shape::Walks, "fma rounded twice"),
];

const fn by_number(step: fn(u32) -> Option<Step>) -> Rules {
    Rules { step, ..RIGHT }
}

const fn by_agreement(agrees: fn(Answer, Answer) -> bool) -> Rules {
    Rules { agrees, ..RIGHT }
}

const fn by_answer(answer: fn(Step, Question) -> Answer) -> Rules {
    Rules { answer, ..RIGHT }
}

/// As it should be.
fn step(number: u32) -> Option<Step> {
    (RIGHT.step)(number)
}

fn answer(step: Step, q: Question) -> Answer {
    (RIGHT.answer)(step, q)
}

/// The results are one, and the marks are by what is seen of them.
fn marked(given: Answer, right: Answer, seen: fn(u32) -> u32) -> bool {
    given.result == right.result && seen(given.mark) == seen(right.mark)
}

/// The marks are one, and the results are by what is seen of them.
fn resulted(given: Answer, right: Answer, seen: fn(u32) -> u32) -> bool {
    given.mark == right.mark && seen(given.result) == seen(right.result)
}

pub fn one_zero(pattern: u32) -> u32 {
    if pattern == SIGN {
        0
    } else {
        pattern
    }
}

pub fn one_nan(pattern: u32) -> u32 {
    if is_nan(pattern) {
        NAN
    } else {
        pattern
    }
}

fn with_mark(step: Step, q: Question, fault: marks::Fault) -> Answer {
    let right = answer(step, q);
    Answer { mark: fault(step, q, right), ..right }
}

fn with_result(step: Step, q: Question, fault: fn(u32) -> u32) -> Answer {
    let right = answer(step, q);
    Answer { result: fault(right.result), ..right }
}

fn flipped_nan(step: Step, q: Question) -> Answer {
    if step == Step::Sub {
        answer(Step::Add, Question { y: q.y ^ SIGN, ..q })
    } else {
        answer(step, q)
    }
}

/// With the right mark.
fn rounded_twice(step: Step, q: Question) -> Answer {
    let right = answer(step, q);
    if step != Step::Fma || q.has_nan(step) {
        return right;
    }
    let product = answer(Step::Mul, q).result;
    Answer { result: answer(Step::Add, Question::two(product, q.z)).result, ..right }
}
