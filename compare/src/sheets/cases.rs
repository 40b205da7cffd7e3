//! What the model has to give before it counts as a reference: the example of R9, sheets with NaN, the cases of R10, and
//! the steps of the processor; and the table of branches has to have every way that questions take.
use super::files::branches;
use super::{model, steps};
use crate::marks;
use crate::processor::Processor;
use crate::questions::{question, SHAPES};
use crate::random::Random;
use crate::step::{Answer, Question, Step, STEPS};

const QUESTION: &str = "sum\t3F800001\t33800000\n";

const ANSWER: &str = "ask\t1\tsum\t3F800001\t33800000
step\t1\tadd\t3F800001\t33800000\t-\t3F800002\t1
step\t2\tsub\t3F800002\t3F800001\t-\t34000000\t0
step\t3\tsub\t33800000\t34000000\t-\tB3800000\t0
step\t4\tmul\t3F7FFFFF\t3F800002\t-\t3F800001\t1
step\t5\tsub\t3F800001\t3F800002\t-\tB4000000\t0
step\t6\tmul\t40000000\tB3800000\t-\tB4000000\t0
pair\t3F800001\t33800000\t-
total\t3F800001\t33800000
end\t1\t0
";

/// Where line 1 is NaN it is the last; u times an infinity has a NaN behind it, of the sign that -a' has.
const NAN_QUESTIONS: &str = "sum\t7FC00001\t00000000
dif\t3F800000\t7F812345
mul\tFFC12345\t7F800001
mul\t00000001\t7F800000
";

const NAN_ANSWERS: &str = "ask\t1\tsum\t7FC00001\t00000000
step\t1\tadd\t7FC00001\t00000000\t-\t7FC00001\t2
pair\t7FC00001\t7FC00001\t-
ask\t2\tdif\t3F800000\t7F812345
step\t1\tadd\t3F800000\tFF812345\t-\tFFC12345\t2
pair\tFFC12345\tFFC12345\tI
ask\t3\tmul\tFFC12345\t7F800001
step\t1\tmul\tFFC12345\t7F800001\t-\tFFC12345\t2
pair\tFFC12345\tFFC12345\tI
ask\t4\tmul\t00000001\t7F800000
step\t1\tmul\t00000001\t7F800000\t-\t7F800000\t2
step\t2\tmul\t3F000000\t00000001\t-\t00000000\t1
step\t3\tmul\t00000000\t7F800000\t-\t7FC00000\t2
step\t4\tfma\t00000000\t7F800000\tFFC00000\tFFC00000\t2
pair\t7F800000\t7F800000\t-
total\t00000000\t00000000
end\t4\t0
";

const EMPTY: &str = "total\t00000000\t00000000\nend\t0\t0\n";

/// Questions with the `pair` line that R10 lists.
const CASES: [(&str, &str); 11] = [
    ("sum\t3F800000\t33800000", "3F800000\t33800000\t-"),
    ("sum\t7F7FFFFF\t73000000", "7F7FFFFF\t73000000\t-"),
    ("sum\t7F7FFFFF\t73000001", "7F800000\t7F800000\tOX"),
    ("sum\t80000000\t80000000", "80000000\t80000000\t-"),
    ("sum\tBF800000\t3F800000", "00000000\t00000000\t-"),
    ("sum\t7F800000\tFF800000", "7FC00000\t7FC00000\tI"),
    ("mul\t41F80000\t7D042108", "7F7FFFFF\t73000000\t-"),
    ("mul\t00000003\t3F000000", "00000001\t00000000\tUX"),
    ("mul\t80000001\t3F000000", "80000000\t80000000\tUX"),
    ("mul\t3F800001\t00800001", "00800002\t00000000\tUX"),
    ("mul\t3F800001\t3F800001", "3F800002\t28800000\t-"),
];

const PLUS: &str = "00000000\t00000000";
const MINUS: &str = "80000000\t80000000";

/// Questions with the `total` line: -0 where all that is added is.
const TOTALS: [(&str, &str); 11] = [
    ("sum\t80000000\t80000000", MINUS),
    ("dif\t80000000\t00000000", MINUS),
    ("mul\t80000000\t3F800000", MINUS),
    ("sum\t80000000\t80000000\nmul\t00000000\t80000000\ndif\t80000000\t00000000", MINUS),
    ("sum\t80000000\t80000000\nsum\t00000000\t80000000\nsum\t80000000\t80000000", PLUS),
    ("sum\tBF800000\t3F800000", PLUS),
    // Half of the smallest number: the product rounds to a zero of its sign, which is added.
    ("mul\t80000001\t3F000000", MINUS),
    ("sum\t80000000\t80000000\nmul\t00000001\t3F000000", PLUS),
    // A pair that is not finite, and a bad line, add nothing.
    ("sum\t80000000\t80000000\nsum\t7F800000\t3F800000\nsum", MINUS),
    ("mul\t7F800000\t80000000", PLUS),
    ("\n", PLUS),
];

/// The first thing that the model does not give.
pub fn distrusted(processor: Processor, seed: u64) -> Option<String> {
    let texts = [
        ("the example", QUESTION, ANSWER),
        ("sheets with NaN", NAN_QUESTIONS, NAN_ANSWERS),
        ("empty input", "", EMPTY),
    ];
    let text = texts.iter().find(|(_, input, right)| model::printed(input.as_bytes()) != *right);
    text.map(|text| text.0.to_string())
        .or_else(|| wrong_line(&CASES, "pair"))
        .or_else(|| wrong_line(&TOTALS, "total"))
        .or_else(|| wrong_step(processor, seed))
        .or_else(|| {
            branches::missing(seed, WAYS).map(|asked| format!("a way without a row: {}", asked.shown()))
        })
}

/// The questions whose line of this name is not the one that is given.
fn wrong_line(cases: &[(&str, &str)], name: &str) -> Option<String> {
    let wrong = |(questions, right): &&(&str, &str)| {
        let printed = model::printed(questions.as_bytes());
        printed.lines().find_map(|line| line.strip_prefix(name)?.strip_prefix('\t')) != Some(*right)
    };
    cases.iter().find(wrong).map(|case| case.0.to_string())
}

/// Random questions a step and shape, and random questions for ways.
const QUESTIONS: u64 = 20_000;
const WAYS: u64 = 300_000;

fn wrong_step(processor: Processor, seed: u64) -> Option<String> {
    let wrong = |step: Step, q: Question| {
        let (model, processor) = (steps::answer(step, q), processor.witness(step, q));
        let right = Answer { result: processor.result, mark: processor.mark.unwrap_or(marks::mark(step, q)) };
        (model != right).then(|| {
            format!("{} {}: {}, not {}", step.name(), q.shown(step), model.shown(" "), right.shown(" "))
        })
    };
    STEPS.into_iter().find_map(|step| {
        SHAPES.into_iter().find_map(|shape| {
            let mut r = Random::stream(seed, &[511, step as u64, shape as u64]);
            (0..QUESTIONS).find_map(|_| wrong(step, question(step, shape, &mut r)))
        })
    })
}
