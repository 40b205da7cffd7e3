//! Times each step of the library beside the processor's own and the toolchain's software floats.
use crate::marks;
use crate::pattern::is_nan;
use crate::processor::{self, Processor};
use crate::random::Random;
use crate::step::{Answer, Question, Step, STEPS};
use crate::sums::number;
use crate::{software, subject};
use std::hint::black_box;
use std::process::ExitCode;
use std::time::Instant;

#[derive(Clone, Copy, PartialEq)]
enum Who {
    Library,
    Processor,
    Software,
}

/// So many that the branch predictor does not learn them by heart, as it partly does with 4096.
pub const QUESTIONS: usize = 32768;
/// Sweeps over the questions in one measurement, long beside the clock's own cost.
pub const SWEEPS: usize = 3;
pub const REPETITIONS: usize = 31;

/// One number of the table: who answers which step on which inputs.
struct Cell {
    inputs: &'static str,
    step: Step,
    who: Who,
    times: Vec<f64>,
}

pub fn run(processor: Processor, seed: u64) -> ExitCode {
    let inputs = [("uniform", uniform(seed)), ("near", near(seed))];
    let mut cells = cells(&inputs);
    for (_, questions) in &inputs {
        if let Some(what) = disagreement(processor, questions) {
            println!("not timed, as the answers differ: {what}");
            return ExitCode::FAILURE;
        }
    }
    // Interleaved: what else the machine does falls on every cell alike. The first turn warms up.
    for repetition in 0..=REPETITIONS {
        for cell in &mut cells {
            let questions = &inputs.iter().find(|i| i.0 == cell.inputs).expect("listed").1;
            let time = measured(processor, cell.who, cell.step, questions);
            if repetition > 0 {
                cell.times.push(time);
            }
        }
    }
    print_table(&cells);
    ExitCode::SUCCESS
}

fn uniform(seed: u64) -> Vec<Question> {
    let mut r = Random::stream(seed, &[100]);
    (0..QUESTIONS).map(|_| Question::three(r.pattern(), r.pattern(), r.pattern())).collect()
}

/// Normal numbers whose exponents lie within 3 of 1's.
fn near(seed: u64) -> Vec<Question> {
    let mut r = Random::stream(seed, &[101]);
    let mut one = || {
        let exponent = r.within(124, 130);
        number(&mut r, exponent)
    };
    (0..QUESTIONS).map(|_| Question::three(one(), one(), one())).collect()
}

fn cells(inputs: &[(&'static str, Vec<Question>)]) -> Vec<Cell> {
    let mut cells = Vec::new();
    for &(inputs, _) in inputs {
        for step in STEPS {
            for who in [Who::Library, Who::Processor, Who::Software] {
                if exists(who, step) {
                    cells.push(Cell { inputs, step, who, times: Vec::new() });
                }
            }
        }
    }
    cells
}

/// The toolchain links no software fma.
fn exists(who: Who, step: Step) -> bool {
    who != Who::Software || step != Step::Fma
}

/// Answers every question by calls of one function, none of them inlined. The library's marks are kept as well as the results.
fn sweep(processor: Processor, who: Who, step: Step, questions: &[Question]) -> u64 {
    match (who, step) {
        (Who::Library, Step::Add) => each(questions, |q| both(subject::add(q.x, q.y))),
        (Who::Library, Step::Sub) => each(questions, |q| both(subject::sub(q.x, q.y))),
        (Who::Library, Step::Mul) => each(questions, |q| both(subject::mul(q.x, q.y))),
        (Who::Library, Step::Fma) => each(questions, |q| both(subject::fma(q.x, q.y, q.z))),
        (Who::Processor, step) => sweep_processor(processor, step, questions),
        (Who::Software, Step::Add) => each(questions, |q| software::add(q.x, q.y).into()),
        (Who::Software, Step::Sub) => each(questions, |q| software::sub(q.x, q.y).into()),
        (Who::Software, Step::Mul) => each(questions, |q| software::mul(q.x, q.y).into()),
        (Who::Software, Step::Fma) => unreachable!("no such function"),
    }
}

/// Through a pointer that the compiler does not see through: the other two are called through a table of
/// addresses, being in other objects.
fn sweep_processor(processor: Processor, step: Step, questions: &[Question]) -> u64 {
    if step == Step::Fma {
        type Three = unsafe extern "C" fn(u32, u32, u32) -> u32;
        let chosen: Three = if processor.fused_instruction { processor::fma } else { processor::fma_called };
        let fma = black_box(chosen);
        // SAFETY: the instruction is chosen only where the processor has it.
        return each(questions, |q| unsafe { fma(q.x, q.y, q.z) }.into());
    }
    type Two = extern "C" fn(u32, u32) -> u32;
    let chosen: Two = match step {
        Step::Add => processor::add,
        Step::Sub => processor::sub,
        _ => processor::mul,
    };
    let two = black_box(chosen);
    each(questions, |q| two(q.x, q.y).into())
}

/// The answers xored, so that none is dropped.
#[inline(always)]
fn each(questions: &[Question], answer: impl Fn(&Question) -> u64) -> u64 {
    questions.iter().fold(0, |all, q| all ^ answer(q))
}

/// The mark above the result, as they come back in one register.
#[inline(always)]
fn both(answer: Answer) -> u64 {
    u64::from(answer.mark) << 32 | u64::from(answer.result)
}

/// Nanoseconds a step.
fn measured(processor: Processor, who: Who, step: Step, questions: &[Question]) -> f64 {
    let start = Instant::now();
    for _ in 0..SWEEPS {
        black_box(sweep(processor, who, step, black_box(questions)));
    }
    start.elapsed().as_nanos() as f64 / (SWEEPS * questions.len()) as f64
}

/// A question that someone answers otherwise than the processor, or marks otherwise than the model: its time would say
/// nothing. The software floats choose their NaN themselves.
fn disagreement(processor: Processor, questions: &[Question]) -> Option<String> {
    for step in STEPS {
        for who in [Who::Library, Who::Software].into_iter().filter(|&who| exists(who, step)) {
            for q in questions {
                let given = sweep(processor, who, step, std::slice::from_ref(q));
                let result = processor.answer(step, *q);
                let mark = if who == Who::Library { marks::mark(step, *q) } else { 0 };
                let own_nan = who == Who::Software && is_nan(given as u32) && is_nan(result);
                if given != both(Answer { result, mark }) && !own_nan {
                    return Some(format!("{} {}", step.name(), q.shown(step)));
                }
            }
        }
    }
    None
}

pub fn median(mut values: Vec<f64>) -> f64 {
    values.sort_by(f64::total_cmp);
    values[values.len() / 2]
}

fn times<'a>(cells: &'a [Cell], inputs: &str, step: Step, who: Who) -> Option<&'a [f64]> {
    let cell = cells.iter().find(|c| c.inputs == inputs && c.step == step && c.who == who)?;
    Some(&cell.times)
}

/// The median of the ratios, each within one repetition: the processor's pace drifts between them.
pub fn ratio(a: Option<&[f64]>, b: Option<&[f64]>) -> Option<f64> {
    Some(median(a?.iter().zip(b?).map(|(a, b)| a / b).collect()))
}

fn print_table(cells: &[Cell]) {
    println!("| inputs | step | library ns | processor ns | software float ns | library / software float | library / library's mul |");
    println!("|---|---|---:|---:|---:|---:|---:|");
    for inputs in ["uniform", "near"] {
        for step in STEPS {
            println!("{}", row(cells, inputs, step));
        }
    }
    println!();
    println!("Nanoseconds a step: the median of {REPETITIONS} interleaved repetitions, each of {SWEEPS} sweeps over");
    println!("{QUESTIONS} questions. A ratio is the median of the repetitions' ratios.");
    println!("Inputs are precomputed and caches warm; no call is inlined; questions do not depend on each other, so calls overlap.");
    println!("uniform: any patterns; near: normal numbers whose exponents lie within 3 of 1's.");
    println!("The library gives result and mark, the processor's instruction and the software floats the result alone.");
}

fn row(cells: &[Cell], inputs: &str, step: Step) -> String {
    let [ours, processor, software] =
        [Who::Library, Who::Processor, Who::Software].map(|who| times(cells, inputs, step, who));
    let mul = times(cells, inputs, Step::Mul, Who::Library).filter(|_| step == Step::Fma);
    let [a, b, c] = [ours, processor, software].map(|t| shown(t.map(|t| median(t.to_vec()))));
    let to_software = shown(ratio(ours, software));
    let to_mul = shown(ratio(ours, mul));
    format!("| {inputs} | {} | {a} | {b} | {c} | {to_software} | {to_mul} |", step.name())
}

pub fn shown(number: Option<f64>) -> String {
    number.map_or("-".to_string(), |n| format!("{n:.2}"))
}
