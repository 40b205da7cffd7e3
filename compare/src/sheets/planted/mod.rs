//! The comparison of the program tried on itself: a program with a planted fault has to be found out.
mod input;
mod marks;
mod nan;
mod order;
mod text;
mod totals;

use super::compare::{compare, difference};
use super::endings;
use super::failures::{self, Call};
use super::files::branches::{self, Way};
use super::files::{File, Shape, Source, SHAPES};
use super::model;
use super::program::{Process, Program};
use super::sheet::LINES;

/// The fields of a step's line.
const RESULT: usize = 6;
const MARK: usize = 7;

#[derive(Clone, Copy)]
enum Fault {
    /// The right text of an input that was read otherwise.
    Input(fn(&File) -> Vec<u8>),
    /// The right text, spoilt.
    Text(fn(&str) -> String),
    /// The right text, with other refusals.
    Order(order::Order),
    /// A digit is wrong in a field of the last step of each question that takes this way through the rules.
    Digit(Way, usize),
    /// The mark is wrong in every step of this number.
    MarkOnLine(usize),
}

/// The model's text, with one fault.
struct Planted(Fault);

impl Program for Planted {
    fn printed(&self, file: &File, right: &str) -> Result<Vec<u8>, String> {
        let text = match self.0 {
            Fault::Input(changed) => model::printed(&changed(file)),
            Fault::Text(spoilt) => spoilt(right),
            Fault::Order(order) => order::reordered(file, right, order),
            Fault::Digit(way, place) => text::wrong_digit(right, way, place),
            Fault::MarkOnLine(number) => marks::on_line(right, number),
        };
        Ok(text.into_bytes())
    }
}

/// Each fault with the shape that is there to find it, and what a report calls it.
fn faults() -> Vec<(Fault, Shape, &'static str)> {
    let ways = branches::ways();
    let of_ways = |place: usize, name: &'static str| {
        ways.iter().map(move |&way| (Fault::Digit(way, place), Shape::Branches, name))
    };
    let digits = of_ways(RESULT, "a wrong digit on each way through the rules");
    let marked = of_ways(MARK, "a wrong mark on each way through the rules");
    let numbers = (1..=LINES)
        .map(|number| (Fault::MarkOnLine(number), Shape::Branches, "a wrong mark on each line's number"));
    let inputs = input::FAULTS.iter().map(|&(fault, shape, name)| (Fault::Input(fault), shape, name));
    let orders = order::FAULTS.iter().map(|&(fault, shape, name)| (Fault::Order(fault), shape, name));
    let texts = text::FAULTS.iter().chain(&nan::FAULTS).chain(&marks::FAULTS).chain(&totals::FAULTS);
    let texts = texts.map(|&(fault, shape, name)| (Fault::Text(fault), shape, name));
    digits.chain(marked).chain(numbers).chain(inputs).chain(orders).chain(texts).collect()
}

const FILES: u64 = 12;

/// Runs the comparison on each fault, by its shape, and on programs that cut lines or do not end. Says which it
/// found, or the first that it missed.
pub fn tried(seed: u64) -> Result<String, String> {
    let mut found = Vec::new();
    for shape in SHAPES {
        let source = Source { shape, seed, files: FILES };
        let asked: Vec<(File, String)> =
            (0..source.count()).map(|number| answered(&source, number)).collect();
        for (fault, _, name) in faults().into_iter().filter(|fault| fault.1 == shape) {
            if !asked.iter().any(|(file, right)| difference(&Planted(fault), file, right).is_some()) {
                return Err(format!("sheet {} ({name})", shape.name()));
            }
            found.push(format!("{name} ({})", shape.name()));
        }
    }
    found.extend(tried_processes(seed)?);
    // Those for each of the places or ways have one name.
    found.dedup();
    Ok(found.join(", "))
}

fn answered(source: &Source, number: u64) -> (File, String) {
    let file = source.file(number);
    let right = model::printed(&file.bytes);
    (file, right)
}

/// Programs whose fault is in how they read and end, run as the real one is.
fn tried_processes(seed: u64) -> Result<Vec<String>, String> {
    let hasty = "a read that ends a line";
    let source = Source { shape: Shape::Ends, seed, files: FILES };
    if compare(&Process::own(&["impostor", "hasty"]), &source).differences.is_empty() {
        return Err(format!("sheet ends ({hasty})"));
    }
    let mut found = vec![format!("{hasty} (ends)")];
    for (name, about) in [("greedy", "reading on after line 32,769"), ("deaf", "going on at a closed output")]
    {
        let missed = endings::not_failed(&Process::own(&["impostor", name]), name == "deaf");
        if let Some(trial) = missed {
            return Err(format!("{about}: {trial}"));
        }
        found.push(format!("{about} (endings)"));
    }
    found.extend(tried_failures()?);
    Ok(found)
}

/// Programs whose fault is in how they meet a call that fails.
fn tried_failures() -> Result<Vec<String>, String> {
    let faults = [
        ("mute", Call::Read, "a failed read that is not said"),
        ("mute", Call::Write, "a failed write that is not said"),
        ("content", Call::Read, "a failed read taken for the end of the input"),
        ("stubborn", Call::Write, "reading on after a failed write"),
    ];
    faults
        .iter()
        .map(|&(name, call, about)| match failures::not_failed(&Process::own(&["impostor", name]), call) {
            Some(trial) => Err(format!("{about}: {trial}")),
            None => Ok(format!("{about} (failures)")),
        })
        .collect()
}
