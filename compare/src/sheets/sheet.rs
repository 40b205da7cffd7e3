//! The model sheet of a question, by the rules of R5 in their order.
use super::path::{Branch, Path};
use super::steps;
use crate::pairs::model;
use crate::pairs::pair::{Flags, Operation};
use crate::pattern::{is_nan, magnitude, power, INFINITY, SIGN};
use crate::step::{Answer, Question, Step};

const PSI: u32 = 0x3F7F_FFFF;
const TWO: u32 = 0x4000_0000;
const MINUS_TWO: u32 = 0xC000_0000;
const HALF: u32 = 0x3F00_0000;
const KAPPA: u32 = 0x3FFF_FFFF;
const UP: u32 = 0x4B80_0000;
const UP_TWICE: u32 = 0x5780_0000;
const DOWN: u32 = 0x3380_0000;
const ZERO: u32 = 0;
const SMALLEST: u32 = 1;

/// The most lines that a sheet has.
pub const LINES: usize = 13;

#[derive(Clone, Copy, PartialEq, Eq, Debug)]
pub struct Line {
    pub step: Step,
    pub operands: Question,
    pub result: u32,
    pub mark: u32,
}

/// The lines, and the foot with its flags.
#[derive(Clone, PartialEq, Eq, Debug)]
pub struct Sheet {
    pub lines: Vec<Line>,
    pub first: u32,
    pub second: u32,
    pub flags: Flags,
    pub path: Path,
}

/// The sheet of a question. Its foot has to be the pair, or the model is no reference.
pub fn sheet(operation: Operation, x: u32, y: u32) -> Sheet {
    let mut writer = Writer::new();
    let (first, second) = match operation {
        Operation::Sum => writer.sum(x, y),
        Operation::Difference => writer.sum(x, y ^ SIGN),
        Operation::Product => writer.product(x, y),
    };
    let pair = model::pair(operation, x, y);
    let name = operation.name();
    assert_eq!((first, second), pair.patterns(), "the foot of {name} {x:08X} {y:08X} is the pair");
    assert!(writer.lines.len() <= LINES, "{name} {x:08X} {y:08X} has {} lines", writer.lines.len());
    Sheet { lines: writer.lines, first, second, flags: pair.flags, path: writer.path }
}

/// By value: NaN equals nothing, +0 equals -0.
fn equal(a: u32, b: u32) -> bool {
    !is_nan(a) && !is_nan(b) && (a == b || is_zero(a) && is_zero(b))
}

fn is_zero(a: u32) -> bool {
    magnitude(a) == 0
}

fn is_infinite(a: u32) -> bool {
    magnitude(a) == INFINITY
}

fn opposite(a: u32) -> u32 {
    a ^ SIGN
}

fn with_sign_of(pattern: u32, a: u32) -> u32 {
    pattern | (a & SIGN)
}

/// Half the exact result is half the overflow edge: 2^127, and 2^102 with the other sign.
fn at_edge(a: u32, b: u32) -> bool {
    magnitude(a) == power(127) && b == opposite(with_sign_of(power(102), a))
}

struct Writer {
    lines: Vec<Line>,
    path: Path,
}

impl Writer {
    fn new() -> Writer {
        Writer { lines: Vec::with_capacity(LINES), path: Path::BEGUN }
    }

    fn line(&mut self, step: Step, operands: Question) -> u32 {
        let Answer { result, mark } = steps::answer(step, operands);
        self.lines.push(Line { step, operands, result, mark });
        result
    }

    fn add(&mut self, x: u32, y: u32) -> u32 {
        self.line(Step::Add, Question::two(x, y))
    }

    fn sub(&mut self, x: u32, y: u32) -> u32 {
        self.line(Step::Sub, Question::two(x, y))
    }

    fn mul(&mut self, x: u32, y: u32) -> u32 {
        self.line(Step::Mul, Question::two(x, y))
    }

    fn fma(&mut self, x: u32, y: u32, z: u32) -> u32 {
        self.line(Step::Fma, Question::three(x, y, z))
    }

    fn recompose(&mut self, a: u32, b: u32) -> (u32, u32) {
        let z = self.mul(PSI, a);
        let d = self.sub(z, a);
        let e = self.mul(TWO, b);
        if equal(e, d) {
            // Where both are zeros nothing is put together anew.
            self.path.recomposed = !is_zero(e);
            (z, opposite(b))
        } else {
            (a, b)
        }
    }

    fn zero_finish(&mut self, (first, second): (u32, u32)) -> (u32, u32) {
        if is_zero(second) {
            self.path.zero_finished = true;
            (first, self.mul(ZERO, first))
        } else {
            (first, second)
        }
    }

    fn fast_two_sum(&mut self, x: u32, y: u32) -> (u32, u32) {
        let a = self.add(x, y);
        (a, self.left_of_sum(x, y, a))
    }

    fn left_of_sum(&mut self, x: u32, y: u32, a: u32) -> u32 {
        let v = self.sub(a, x);
        self.sub(y, v)
    }

    fn fast_two_mult(&mut self, x: u32, y: u32) -> (u32, u32) {
        let a = self.mul(x, y);
        (a, self.fma(x, y, opposite(a)))
    }

    /// The edge test on half the result, and its two lines, or `a` twice.
    fn at_overflow(&mut self, a: u32, (half, rest): (u32, u32), edge: Branch) -> (u32, u32) {
        if at_edge(half, rest) {
            self.path.branch = edge;
            (self.mul(KAPPA, half), self.mul(MINUS_TWO, rest))
        } else {
            (a, a)
        }
    }

    /// After line 1, with `a` twice.
    fn ended(&mut self, a: u32, branch: Branch) -> (u32, u32) {
        self.path.branch = branch;
        (a, a)
    }

    /// For a difference, y is flipped already.
    fn sum(&mut self, x: u32, y: u32) -> (u32, u32) {
        let larger = !is_nan(x) && !is_nan(y) && magnitude(y) > magnitude(x);
        self.path.swapped = larger;
        let (x, y) = if larger { (y, x) } else { (x, y) };
        let a = self.add(x, y);
        if is_nan(a) {
            return self.ended(a, Branch::SumNan);
        }
        self.path.branch = Branch::Sum;
        let b = self.left_of_sum(x, y, a);
        let recomposed = self.recompose(a, b);
        let (first, second) = self.zero_finish(recomposed);
        if !is_zero(second) && is_infinite(a) {
            self.path.branch = Branch::SumInfinite;
            let (x, y) = (self.mul(HALF, x), self.mul(HALF, y));
            let halved = self.fast_two_sum(x, y);
            return self.at_overflow(a, halved, Branch::SumEdge);
        }
        (first, second)
    }

    fn product(&mut self, x: u32, y: u32) -> (u32, u32) {
        let a = self.mul(x, y);
        if is_nan(a) {
            self.ended(a, Branch::ProductNan)
        } else if is_infinite(a) {
            self.path.branch = Branch::ProductInfinite;
            let h = self.mul(HALF, x);
            let halved = self.fast_two_mult(h, y);
            self.at_overflow(a, halved, Branch::ProductEdge)
        } else if is_zero(a) {
            self.ended(a, Branch::ProductZero)
        } else if magnitude(a) < power(-125) {
            self.tiny(x, y, a)
        } else if magnitude(a) <= power(-102) {
            self.middle(x, y)
        } else {
            self.path.branch = Branch::Otherwise;
            let b = self.fma(x, y, opposite(a));
            let recomposed = self.recompose(a, b);
            self.zero_finish(recomposed)
        }
    }

    /// 0 < |a| < 2^-125.
    fn tiny(&mut self, x: u32, y: u32, a: u32) -> (u32, u32) {
        self.path.branch = Branch::Tiny;
        let m = self.mul(UP, x);
        let n = self.mul(UP, y);
        let (t1, t2) = self.fast_two_mult(m, n);
        let g = self.mul(UP_TWICE, a);
        let t3 = self.sub(t1, g);
        let z = self.add(t2, t3);
        let w = self.sub(z, t3);
        let tie = z == opposite(with_sign_of(power(-102), a)) && equal(w, t2);
        let first = if tie { self.lower(a) } else { a };
        self.path.zero_finished = true;
        (first, self.mul(ZERO, first))
    }

    /// 2^-125 <= |a| <= 2^-102.
    fn middle(&mut self, x: u32, y: u32) -> (u32, u32) {
        self.path.branch = Branch::Middle;
        let m = self.mul(UP, x);
        let (a, b) = self.fast_two_mult(m, y);
        let (high, low) = self.recompose(a, b);
        let first = self.mul(DOWN, high);
        let beta = self.mul(DOWN, low);
        let g = self.mul(UP, beta);
        let r = self.sub(g, low);
        let tie = !is_zero(beta) && r == with_sign_of(power(-126), beta);
        let second = if tie { self.lower(beta) } else { beta };
        self.zero_finish((first, second))
    }

    /// Minus u with its own sign, one line.
    fn lower(&mut self, a: u32) -> u32 {
        self.path.lowered = true;
        self.sub(a, with_sign_of(SMALLEST, a))
    }
}
