//! The shapes of random questions for pairs, and where a run's questions come from.
use super::below_power;
use super::edges::Edges;
use super::pair::Operation;
use super::tiny;
use crate::pattern::SIGN;
use crate::questions::Shape as StepShape;
use crate::random::Random;
use crate::step::Question;
use crate::{products, sums};

#[derive(Clone, Copy, PartialEq, Eq, Debug)]
pub enum Shape {
    /// Questions that a step is asked too.
    Step(StepShape),
    /// Exact results at a tie, or one unit beside it; some of them just below a power of two.
    Halfway,
    /// Results beside the largest number; some of them at the overflow edge itself.
    Overflow,
    /// Products of few bits or none to spare above 2^-149. A sum is always a whole number of that.
    Tiny,
}

const SHAPES: [Shape; 8] = [
    Shape::Step(StepShape::Uniform),
    Shape::Step(StepShape::Near),
    Shape::Step(StepShape::Cancelling),
    Shape::Halfway,
    Shape::Step(StepShape::Subnormal),
    Shape::Overflow,
    Shape::Step(StepShape::Special),
    Shape::Tiny,
];

impl Shape {
    pub fn name(self) -> &'static str {
        match self {
            Shape::Step(shape) => shape.name(),
            Shape::Halfway => "halfway",
            Shape::Overflow => "overflow",
            Shape::Tiny => "tiny",
        }
    }
}

/// Only products are asked about tiny results.
pub fn shapes(operation: Operation) -> &'static [Shape] {
    match operation {
        Operation::Product => &SHAPES,
        Operation::Sum | Operation::Difference => &SHAPES[..7],
    }
}

pub fn question(operation: Operation, shape: Shape, r: &mut Random) -> Question {
    match operation {
        Operation::Sum => sum(shape, r),
        Operation::Difference => turned(sum(shape, r)),
        Operation::Product => product(shape, r),
    }
}

fn turned(q: Question) -> Question {
    Question::two(q.x, q.y ^ SIGN)
}

fn sum(shape: Shape, r: &mut Random) -> Question {
    match shape {
        Shape::Halfway if r.once_in(4) => below_power::sum(r.within(-149, 102), r),
        Shape::Overflow if r.once_in(4) => below_power::sum(below_power::OVERFLOW, r),
        Shape::Halfway => sums::question(StepShape::Halfway, r),
        Shape::Overflow => sums::question(StepShape::Overflow, r),
        Shape::Step(shape) => sums::question(shape, r),
        Shape::Tiny => unreachable!("no shape of a sum's"),
    }
}

fn product(shape: Shape, r: &mut Random) -> Question {
    match shape {
        Shape::Halfway if r.once_in(4) => below_power::product(r.within(-149, 102), r),
        Shape::Overflow if r.once_in(4) => below_power::product(below_power::OVERFLOW, r),
        Shape::Halfway => products::question(StepShape::Halfway, r),
        Shape::Overflow => products::question(StepShape::Overflow, r),
        Shape::Step(shape) => products::question(shape, r),
        Shape::Tiny => tiny::question(r),
    }
}

/// The questions of one line of the report, in chunks that threads share out.
pub enum Source<'a> {
    Edges(&'a Edges),
    Random { seed: u64, shape: Shape, count: u64 },
}

const CHUNK: u64 = 2048;

impl Source<'_> {
    pub fn name(&self) -> &'static str {
        match self {
            Source::Edges(_) => "edges",
            Source::Random { shape, .. } => shape.name(),
        }
    }

    pub fn chunks(&self, operation: Operation) -> u64 {
        match self {
            Source::Edges(edges) => {
                let constructed = edges.constructed(operation).len() as u64;
                constructed.div_ceil(CHUNK) + edges.patterns.len() as u64
            }
            Source::Random { count, .. } => count.div_ceil(CHUNK),
        }
    }

    /// The questions of one chunk.
    pub fn questions(&self, operation: Operation, chunk: u64) -> Vec<Question> {
        match *self {
            Source::Edges(edges) => of_edges(edges, operation, chunk as usize),
            Source::Random { seed, shape, count } => {
                let mut r = Random::stream(seed, &[200 + operation as u64, number(shape), chunk]);
                let asked = CHUNK.min(count - chunk * CHUNK);
                (0..asked).map(|_| question(operation, shape, &mut r)).collect()
            }
        }
    }
}

fn number(shape: Shape) -> u64 {
    SHAPES.iter().position(|&s| s == shape).expect("listed") as u64
}

/// A chunk for each first operand, then the constructed questions in portions. Every NaN is in the former, which are
/// fewer: its faults are found early.
fn of_edges(edges: &Edges, operation: Operation, chunk: usize) -> Vec<Question> {
    let questions = match chunk.checked_sub(edges.patterns.len()) {
        None => edges.patterns.iter().map(|&y| Question::two(edges.patterns[chunk], y)).collect(),
        Some(portion) => {
            let mut portions = edges.constructed(operation).chunks(CHUNK as usize);
            portions.nth(portion).expect("a portion").to_vec()
        }
    };
    match operation {
        Operation::Difference => questions.into_iter().map(turned).collect(),
        Operation::Sum | Operation::Product => questions,
    }
}
