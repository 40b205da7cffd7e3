//! The plain book beside the totals, and what R7 claims of a whole list.
use super::model::{operation, Filled, WORDS};
use super::subject::Question;
use crate::pairs::model as pairs;
use crate::pairs::pair::Operation;
use crate::pattern::{is_finite, magnitude, SIGN};
use crate::totals::call::{Call, Reading};
use crate::totals::model::{value, Term, Total};
use crate::totals::number::Number;

/// S, a whole number of 2^-298 and a word, and how many sums and differences, and how many products, have entered.
pub struct Book {
    number: Number,
    /// 0 while every term of what has entered was -0.
    sign_word: u32,
    sums: u32,
    products: u32,
}

/// What filling handed over says that the question enters: for whoever adds.
pub fn enters(sheet: &Filled) -> bool {
    sheet.refusal == 0 && is_finite(sheet.first) && !sheet.flags.inexact
}

impl Book {
    pub const EMPTY: Book = Book { number: Number::ZERO, sign_word: 0, sums: 0, products: 0 };

    /// S and the counts, by one question more (R7.12).
    pub fn note(&mut self, q: Question) {
        let Some(operation) = operation(q.operation).filter(|_| q.lent as usize >= WORDS) else { return };
        let pair = pairs::pair(operation, q.x, q.y);
        if !is_finite(pair.first) || pair.flags.inexact {
            return;
        }
        let exact = match operation {
            Operation::Sum => value(q.x).plus(&value(q.y)),
            Operation::Difference => value(q.x).plus(&value(q.y ^ SIGN)),
            Operation::Product => Term::of(Call::Product(q.x, q.y)).number,
        };
        self.number = self.number.plus(&exact);
        if !is_minus_zero(operation, q.x, q.y) {
            self.sign_word = 1;
        }
        match operation {
            Operation::Product => self.products += 1,
            Operation::Sum | Operation::Difference => self.sums += 1,
        }
    }

    /// The first total's 22 words, as the claim says.
    pub fn first(&self) -> Vec<u32> {
        self.total(2 * (self.sums + self.products)).words()
    }

    /// The second total's.
    pub fn second(&self) -> Vec<u32> {
        self.total(2 * self.sums + self.products).words()
    }

    /// What both totals read.
    pub fn reading(&self) -> Reading {
        let entered = self.sums + self.products;
        self.total(entered).reading()
    }

    fn total(&self, count: u32) -> Total {
        Total { number: self.number, count, sign_word: self.sign_word }
    }
}

/// Both addends are -0, y flipped for a difference; or one factor is a zero, and the signs differ.
fn is_minus_zero(operation: Operation, x: u32, y: u32) -> bool {
    match operation {
        Operation::Sum => x == SIGN && y == SIGN,
        Operation::Difference => x == SIGN && y == 0,
        Operation::Product => (magnitude(x) == 0 || magnitude(y) == 0) && (x ^ y) & SIGN != 0,
    }
}
