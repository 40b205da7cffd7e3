//! Compares what a program prints with the model's text, byte for byte.
use super::files::{File, Source};
use super::model;
use super::program::Program;
use crate::workers::{self, Outcome};

/// A file that is not answered as the model answers it.
pub struct Difference {
    number: u64,
    about: String,
    cuts: String,
    what: String,
}

/// Has the program answer every file of a source. The questions counted are lines.
pub fn compare<P: Program>(program: &P, source: &Source) -> Outcome<Difference> {
    workers::share(source.count(), |number| {
        let file = source.file(number);
        let right = model::printed(&file.bytes);
        let differing = difference(program, &file, &right).map(|what| Difference {
            number,
            what,
            cuts: file.cuts.shown(),
            about: file.about.clone(),
        });
        (model::lines(&file.bytes).count(), differing.into_iter().collect())
    })
}

pub fn difference<P: Program>(program: &P, file: &File, right: &str) -> Option<String> {
    match program.printed(file, right) {
        Err(what) => Some(what),
        Ok(printed) if printed == right.as_bytes() => None,
        Ok(printed) => Some(first_differing(&printed, right.as_bytes())),
    }
}

/// The first line that differs, as either side has it.
fn first_differing(printed: &[u8], right: &[u8]) -> String {
    let lines = |bytes: &[u8]| bytes.split_inclusive(|&b| b == b'\n').map(<[u8]>::to_vec).collect::<Vec<_>>();
    let (ours, theirs) = (lines(printed), lines(right));
    let same = ours.iter().zip(&theirs).take_while(|(a, b)| a == b).count();
    // The line of the question that it belongs to.
    let asked = theirs[..same.min(theirs.len())].iter().rev().find(|line| line.starts_with(b"ask"));
    let after = asked.map_or(String::new(), |line| format!(", under {}", shown(Some(line))));
    format!(
        "line {} of the text{after}: printed {}, model {}",
        same + 1,
        shown(ours.get(same)),
        shown(theirs.get(same))
    )
}

/// As much as anyone reads.
const PRINTED: usize = 100;

fn shown(line: Option<&Vec<u8>>) -> String {
    line.map_or("nothing".to_string(), |line| {
        format!("{:?}", String::from_utf8_lossy(&line[..line.len().min(PRINTED)]))
    })
}

/// The line of the report, and under it the first differences, `room` of them at most.
pub fn report(program: &str, source: &Source, outcome: &Outcome<Difference>, room: usize) {
    let name = source.shape.name();
    println!(
        "{program:<10}{name:<10}  {:>9} lines      {}",
        outcome.asked,
        if outcome.differences.is_empty() { "no difference" } else { "DIFFERENT" }
    );
    for d in outcome.differences.iter().take(room) {
        println!("    seed {}, file {name} {}, {}: {}", source.seed, d.number, d.cuts, d.about);
        println!("        {}", d.what);
    }
}
