//! The comparison of marking tried on itself: a marker with a planted fault has to be found out.
mod at;
mod claims;
mod constants;
mod counts;
mod lines;
mod operands;
mod results;
mod rules;
mod writes;

use super::compare::compare;
use super::model::Marked;
use super::subject::Subject;
use super::worksheet::Worksheet;
use super::worksheets::{Shape, Source, SHAPES};
use crate::totals::subject::Lent;
use rules::{Rules, RIGHT};

/// A fault, the shape that is there to find it, and what a report calls it.
type Row = (Rules, Shape, &'static str);

/// A marker that goes by these rules.
struct Planted(Rules);

impl Subject for Planted {
    fn mark(&self, operation: u32, x: u32, y: u32, lent: &mut Lent) -> Marked {
        let words = lent.words().to_vec();
        let marked = self.0.mark(&Worksheet { operation, x, y, words, made: None });
        (self.0.writes)(lent, marked);
        marked
    }
}

/// Worksheets a fault.
const COUNT: u64 = 8000;

/// Runs the comparison on each fault, by its shape. Says which it found, or the first that it missed.
pub fn tried(seed: u64) -> Result<String, String> {
    let is_found = |rules, shape| {
        let source = Source { shape, seed, count: COUNT };
        !compare(&Planted(rules), &source).differences.is_empty()
    };
    if let Some(shape) = SHAPES.into_iter().find(|&shape| is_found(RIGHT, shape)) {
        return Err(format!("mark {} (none is planted, and one is found)", shape.name()));
    }
    let mut found = Vec::new();
    for (rules, shape, name) in faults() {
        if !is_found(rules, shape) {
            return Err(format!("mark {} ({name})", shape.name()));
        }
        found.push(format!("{name} ({})", shape.name()));
    }
    Ok(found.join(", "))
}

fn faults() -> impl Iterator<Item = Row> {
    let operands = constants::faults().into_iter().chain(operands::FAULTS);
    let lines = operands.chain(results::FAULTS).chain(lines::FAULTS);
    counts::FAULTS.into_iter().chain(lines).chain(claims::FAULTS).chain(writes::FAULTS)
}
