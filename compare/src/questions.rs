//! The shapes of random questions, and where a run's questions come from.
use crate::pattern::SIGN;
use crate::random::Random;
use crate::step::{Question, Step};
use crate::{fused, products, sums};

#[derive(Clone, Copy, PartialEq, Eq, Debug)]
pub enum Shape {
    /// Any patterns.
    Uniform,
    /// Exponents that let the operands meet.
    Near,
    /// Sums that cancel; products beside a power of two.
    Cancelling,
    /// Exact results at a tie, or one unit beside it.
    Halfway,
    /// Subnormal operands and results.
    Subnormal,
    /// Results beside the largest number.
    Overflow,
    /// NaN of any sign and payload, infinities, zeros and the smallest numbers.
    Special,
}

pub const SHAPES: [Shape; 7] = [
    Shape::Uniform,
    Shape::Near,
    Shape::Cancelling,
    Shape::Halfway,
    Shape::Subnormal,
    Shape::Overflow,
    Shape::Special,
];

impl Shape {
    pub fn name(self) -> &'static str {
        match self {
            Shape::Uniform => "uniform",
            Shape::Near => "near",
            Shape::Cancelling => "cancelling",
            Shape::Halfway => "halfway",
            Shape::Subnormal => "subnormal",
            Shape::Overflow => "overflow",
            Shape::Special => "special",
        }
    }
}

pub fn question(step: Step, shape: Shape, r: &mut Random) -> Question {
    match step {
        Step::Add => sums::question(shape, r),
        Step::Sub => {
            let q = sums::question(shape, r);
            Question::two(q.x, q.y ^ SIGN)
        }
        Step::Mul => products::question(shape, r),
        Step::Fma => fused::question(shape, r),
    }
}

/// The questions of one line of the report, in chunks that threads share out.
pub enum Source<'a> {
    Edges(&'a [u32]),
    Random { seed: u64, shape: Shape, count: u64 },
}

const CHUNK: u64 = 8192;

impl Source<'_> {
    pub fn name(&self) -> &'static str {
        match self {
            Source::Edges(_) => "edges",
            Source::Random { shape, .. } => shape.name(),
        }
    }

    pub fn chunks(&self, step: Step) -> u64 {
        match self {
            Source::Edges(edges) if step == Step::Fma => (edges.len() * edges.len()) as u64,
            Source::Edges(edges) => edges.len() as u64,
            Source::Random { count, .. } => count.div_ceil(CHUNK),
        }
    }

    /// Puts the questions of one chunk in `out`.
    pub fn fill(&self, step: Step, chunk: u64, out: &mut Vec<Question>) {
        out.clear();
        match *self {
            Source::Edges(edges) => fill_edges(step, edges, chunk as usize, out),
            Source::Random { seed, shape, count } => {
                let mut r = Random::stream(seed, &[step as u64, shape as u64, chunk]);
                let asked = CHUNK.min(count - chunk * CHUNK);
                out.extend((0..asked).map(|_| question(step, shape, &mut r)));
            }
        }
    }
}

/// A chunk is one first operand, or for fma one pair of factors.
fn fill_edges(step: Step, edges: &[u32], chunk: usize, out: &mut Vec<Question>) {
    if step == Step::Fma {
        let (x, y) = (edges[chunk / edges.len()], edges[chunk % edges.len()]);
        out.extend(edges.iter().map(|&z| Question::three(x, y, z)));
    } else {
        out.extend(edges.iter().map(|&y| Question::two(edges[chunk], y)));
    }
}
