//! Times marking beside the same on the processor's floats.
use super::model::{self, Marked, LINE, MOST};
use super::peer::{self, Marker};
use super::subject;
use super::way::Way;
use super::worksheet::{Worksheet, RESULT};
use crate::bench::{median, ratio, shown, QUESTIONS, REPETITIONS, SWEEPS};
use crate::pairs::pair::Operation;
use crate::pattern::{fields, SIGN};
use crate::processor::Processor;
use crate::random::Random;
use crate::sheets::files::drawn;
use crate::sheets::line::Asked;
use crate::step::{Question, Step};
use std::hint::black_box;
use std::process::ExitCode;
use std::time::Instant;

#[derive(Clone, Copy)]
enum Inputs {
    Uniform,
    Near,
    Latest,
    Earliest,
}

const INPUTS: [Inputs; 4] = [Inputs::Uniform, Inputs::Near, Inputs::Latest, Inputs::Earliest];

impl Inputs {
    fn name(self) -> &'static str {
        match self {
            Inputs::Uniform => "a sheet and its two lines, uniform",
            Inputs::Near => "a sheet and its two lines, near",
            Inputs::Latest => "100 lines, latest results",
            Inputs::Earliest => "100 lines, earliest results",
        }
    }

    /// One after the other, until they have as many lines as the steps have questions.
    fn worksheets(self, seed: u64) -> Vec<Worksheet> {
        let mut r = Random::stream(seed, &[105, self as u64]);
        let (mut all, mut lines) = (Vec::new(), 0);
        while lines < QUESTIONS {
            let worksheet = self.worksheet(&mut r);
            lines += worksheet.words.len() / LINE;
            all.push(worksheet);
        }
        all
    }

    fn worksheet(self, r: &mut Random) -> Worksheet {
        let way = match self {
            Inputs::Uniform => with_sheet(drawn::any_patterns(r)),
            Inputs::Near => with_sheet(drawn::near(r)),
            Inputs::Latest => without_repeats(latest, r),
            Inputs::Earliest => without_repeats(earliest, r),
        };
        way.handed_in(None)
    }
}

fn with_sheet(asked: Asked) -> Way {
    let mut way = Way::of(asked);
    let (first, second) = way.sheet();
    way.claim(first, second);
    way
}

/// Drawn until no line comes to what is known before it: an operand is then found in one place only.
fn without_repeats(draw: fn(&mut Random) -> Way, r: &mut Random) -> Way {
    loop {
        let way = draw(r);
        if (0..MOST).all(|line| !way.knows(line, way.lines[line][RESULT])) {
            return way;
        }
    }
}

/// So many lines a + a^2, each of what the line before came to: from between -1 and -1/2 on slowly up to 0.
fn falling(lines: usize, r: &mut Random) -> Way {
    let mut a = fields(1, 126, r.pattern());
    let mut way = Way::of(Asked::new(Operation::Sum, a, r.pattern()));
    for _ in 0..lines {
        a = way.line(Step::Fma, Question::three(a, a, a));
    }
    way
}

/// The three operands of each line are the result of the line before.
fn latest(r: &mut Random) -> Way {
    falling(MOST, r)
}

/// The first lines of those that `earliest` makes.
const EARLY: usize = 5;

/// The three operands of each other line are results of the first five, each time in another way.
fn earliest(r: &mut Random) -> Way {
    let mut way = falling(EARLY, r);
    // Two unlike factors: a^2 with another of them may come to a third.
    let factors = (0..EARLY).flat_map(|i| (i + 1..EARLY).map(move |j| (i, j)));
    let places = factors.flat_map(|(i, j)| (0..EARLY).map(move |k| [i, j, k]));
    let signed = places.flat_map(|places| [(places, 0), (places, SIGN)]);
    for (places, sign) in signed.take(MOST - EARLY) {
        let [x, y, z] = places.map(|place| way.lines[place][RESULT]);
        way.line(Step::Fma, Question::three(x, y, z ^ sign));
    }
    way
}

/// One row of the table: the worksheets, and the times of both.
struct Row {
    inputs: Inputs,
    worksheets: Vec<Worksheet>,
    library: Vec<f64>,
    peer: Vec<f64>,
}

pub fn run(processor: Processor, seed: u64) -> ExitCode {
    let peer = black_box(peer::marker(processor));
    let mut rows = INPUTS.map(|inputs| Row {
        inputs,
        worksheets: inputs.worksheets(seed),
        library: Vec::new(),
        peer: Vec::new(),
    });
    if let Some(what) = rows.iter().find_map(|row| disagreement(row, peer)) {
        println!("not timed, as the answers differ or are refusals: {what}");
        return ExitCode::FAILURE;
    }
    // Interleaved: what else the machine does falls on every row alike. The first turn warms up.
    for repetition in 0..=REPETITIONS {
        for row in &mut rows {
            let library = measured(&row.worksheets, by_library);
            let by_peer = measured(&row.worksheets, |worksheet| by_peer(peer, worksheet));
            if repetition > 0 {
                row.library.push(library);
                row.peer.push(by_peer);
            }
        }
    }
    print_table(&rows);
    ExitCode::SUCCESS
}

fn by_library(worksheet: &Worksheet) -> Marked {
    subject::mark(worksheet.operation, worksheet.x, worksheet.y, &worksheet.words)
}

fn by_peer(peer: Marker, worksheet: &Worksheet) -> Marked {
    // SAFETY: the fma instruction is chosen only where the processor has it.
    unsafe { peer(worksheet.operation, worksheet.x, worksheet.y, &worksheet.words) }
}

/// Nanoseconds a worksheet.
fn measured(worksheets: &[Worksheet], mark: impl Fn(&Worksheet) -> Marked) -> f64 {
    let start = Instant::now();
    for _ in 0..SWEEPS {
        let right = black_box(worksheets).iter().filter(|worksheet| mark(worksheet).right).count();
        black_box(right);
    }
    start.elapsed().as_nanos() as f64 / (SWEEPS * worksheets.len()) as f64
}

/// A worksheet that the two and the model do not mark alike, or refuse: a time would say nothing.
fn disagreement(row: &Row, peer: Marker) -> Option<String> {
    let differs = |worksheet: &&Worksheet| {
        let Worksheet { operation, x, y, ref words, .. } = **worksheet;
        let right = model::mark(operation, x, y, words);
        right.refusal != 0 || by_library(worksheet) != right || by_peer(peer, worksheet) != right
    };
    row.worksheets.iter().find(differs).map(Worksheet::shown)
}

fn print_table(rows: &[Row]) {
    println!("| worksheets | lines | library ns | peer ns | library / peer | library ns a line |");
    println!("|---|---:|---:|---:|---:|---:|");
    for row in rows {
        let words: usize = row.worksheets.iter().map(|worksheet| worksheet.words.len()).sum();
        let lines = words as f64 / (LINE * row.worksheets.len()) as f64;
        let [library, peer] = [&row.library, &row.peer].map(|times| median(times.clone()));
        let [a, b, a_line] = [library, peer, library / lines].map(|time| shown(Some(time)));
        let to_peer = shown(ratio(Some(&row.library), Some(&row.peer)));
        println!("| {} | {lines:.1} | {a} | {b} | {to_peer} | {a_line} |", row.inputs.name());
    }
    println!();
    println!("Nanoseconds a worksheet, measured as the steps are, over {QUESTIONS} lines; lines: how many one has on average.");
    println!("peer: the same in plain Rust, on the processor's floats, the pair by algorithms 7 and 9.");
    println!("uniform: sheets of any patterns; near: of normal numbers whose exponents lie within 3 of 1's.");
    println!("latest results: every line is a fused step on the result of the line before, three times; earliest results: on three");
    println!("of the first five lines' results. No result comes twice: whichever way it is searched, one of the two takes longest.");
}
