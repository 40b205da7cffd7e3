//! Times the program on full lists, beside the same program on the processor's floats.
use super::compare::difference;
use super::files::{drawn, File};
use super::line::Asked;
use super::model::{self, MOST};
use super::program::Process;
use super::usage::{most_memory, waited};
use crate::bench::{median, ratio, shown};
use crate::random::Random;
use std::io::{Read, Write};
use std::path::{Path, PathBuf};
use std::process::{ExitCode, Stdio};
use std::time::{Duration, Instant};

#[derive(Clone, Copy)]
enum Inputs {
    Uniform,
    Near,
    Shaped,
    Nothing,
}

const INPUTS: [Inputs; 4] = [Inputs::Uniform, Inputs::Near, Inputs::Shaped, Inputs::Nothing];

impl Inputs {
    fn name(self) -> &'static str {
        match self {
            Inputs::Uniform => "uniform",
            Inputs::Near => "near",
            Inputs::Shaped => "shaped",
            Inputs::Nothing => "empty",
        }
    }

    fn file(self, seed: u64) -> File {
        let mut r = Random::stream(seed, &[104, self as u64]);
        let question: fn(&mut Random) -> Asked = match self {
            Inputs::Uniform => drawn::any_patterns,
            Inputs::Near => drawn::near,
            Inputs::Shaped => drawn::question,
            Inputs::Nothing => return File::of_questions(self.name(), &[]),
        };
        let questions: Vec<Asked> = (0..MOST).map(|_| question(&mut r)).collect();
        File::of_questions(self.name(), &questions)
    }
}

/// Where the output goes.
#[derive(Clone, Copy)]
enum Sink {
    Null,
    File,
    Pipe,
}

const SINKS: [Sink; 3] = [Sink::Null, Sink::File, Sink::Pipe];

impl Sink {
    fn name(self) -> &'static str {
        match self {
            Sink::Null => "/dev/null",
            Sink::File => "a file",
            Sink::Pipe => "a pipe",
        }
    }
}

/// Milliseconds of each repetition: by the clock, and of the processor.
#[derive(Default)]
struct Times {
    clock: Vec<f64>,
    processor: Vec<f64>,
}

struct Row {
    inputs: Inputs,
    sink: Sink,
    path: PathBuf,
    sheet: Times,
    peer: Times,
}

const REPETITIONS: usize = 21;
const LONG_LINE: usize = 64 << 20;

/// `compare sheets-bench`.
pub fn run(seed: u64, program: Option<&str>) -> ExitCode {
    let sheet = program.map_or_else(Process::sheet, Process::named);
    let peer = Process::own(&["peer"]);
    match sheet.missing().map_or_else(|| measured(&sheet, &peer, seed), Err) {
        Ok(()) => ExitCode::SUCCESS,
        Err(what) => {
            println!("not timed: {what}");
            ExitCode::FAILURE
        }
    }
}

fn measured(sheet: &Process, peer: &Process, seed: u64) -> Result<(), String> {
    let folder = Path::new(env!("CARGO_MANIFEST_DIR")).join("target/sheets-bench");
    std::fs::create_dir_all(&folder).map_err(|what| what.to_string())?;
    let mut rows = Vec::new();
    for inputs in INPUTS {
        let file = inputs.file(seed);
        agreed(sheet, peer, &file)?;
        let path = folder.join(inputs.name());
        std::fs::write(&path, &file.bytes).map_err(|what| what.to_string())?;
        rows.extend(SINKS.map(|sink| Row {
            inputs,
            sink,
            path: path.clone(),
            sheet: Times::default(),
            peer: Times::default(),
        }));
    }
    // Interleaved: what else the machine does falls on every row alike. The first turn warms up.
    for repetition in 0..=REPETITIONS {
        for row in &mut rows {
            let by_sheet = timed(sheet, &row.path, row.sink, &folder)?;
            let by_peer = timed(peer, &row.path, row.sink, &folder)?;
            if repetition > 0 {
                row.sheet.note(by_sheet);
                row.peer.note(by_peer);
            }
        }
    }
    print_table(&rows);
    for (name, process) in [("sheet", sheet), ("peer", peer)] {
        let list = memory(process, &Inputs::Uniform.file(seed).bytes)?;
        let line = memory(process, &vec![b'0'; LONG_LINE])?;
        println!(
            "{name}: {list} KiB of memory at most after {MOST} questions, {line} KiB after a line of 64 MiB"
        );
    }
    Ok(())
}

impl Times {
    fn note(&mut self, (clock, processor): (f64, f64)) {
        self.clock.push(clock);
        self.processor.push(processor);
    }
}

/// Both give the model's text: the time of another would say nothing.
fn agreed(sheet: &Process, peer: &Process, file: &File) -> Result<(), String> {
    let right = model::printed(&file.bytes);
    let programs = [("sheet", sheet), ("peer", peer)];
    let wrong = programs.iter().find_map(|(name, program)| {
        difference(*program, file, &right).map(|what| format!("{name}, {}: {what}", file.about))
    });
    wrong.map_or(Ok(()), Err)
}

/// From the start of the process to its end.
fn timed(program: &Process, path: &Path, sink: Sink, folder: &Path) -> Result<(f64, f64), String> {
    let opened = std::fs::File::open(path).map_err(|what| what.to_string())?;
    let output = match sink {
        Sink::Null => Stdio::null(),
        Sink::Pipe => Stdio::piped(),
        Sink::File => std::fs::File::create(folder.join("output")).map_err(|what| what.to_string())?.into(),
    };
    let start = Instant::now();
    let child = program.command().stdin(opened).stdout(output).spawn();
    let mut child = child.map_err(|what| what.to_string())?;
    if let Some(mut output) = child.stdout.take() {
        let mut block = vec![0; 1 << 16];
        while output.read(&mut block).map_err(|what| what.to_string())? > 0 {}
    }
    let processor = waited(child)?;
    Ok((start.elapsed().as_secs_f64() * 1e3, processor))
}

/// Of a program that has read so much and waits for more.
fn memory(program: &Process, bytes: &[u8]) -> Result<u64, String> {
    let mut child = program.started()?;
    let mut input = child.stdin.take().expect("a pipe");
    let mut output = child.stdout.take().expect("a pipe");
    let reader = std::thread::spawn(move || std::io::copy(&mut output, &mut std::io::sink()));
    input.write_all(bytes).map_err(|what| what.to_string())?;
    // It has read all that the pipe held by then.
    std::thread::sleep(Duration::from_millis(500));
    let most = most_memory(&child);
    drop(input);
    waited(child)?;
    reader.join().expect("a reader does not panic").map_err(|what| what.to_string())?;
    most.ok_or("the system does not say how much memory".to_string())
}

fn print_table(rows: &[Row]) {
    println!("| questions | output | sheet ms | peer ms | sheet / peer | sheet processor ms | peer processor ms | sheet / peer |");
    println!("|---|---|---:|---:|---:|---:|---:|---:|");
    for row in rows {
        let of = |sheet: &[f64], peer: &[f64]| {
            let [a, b] = [sheet, peer].map(|times| shown(Some(median(times.to_vec()))));
            format!("{a} | {b} | {}", shown(ratio(Some(sheet), Some(peer))))
        };
        let clock = of(&row.sheet.clock, &row.peer.clock);
        let processor = of(&row.sheet.processor, &row.peer.processor);
        println!("| {} | {} | {clock} | {processor} |", row.inputs.name(), row.sink.name());
    }
    println!();
    println!("Milliseconds a list of {MOST} questions, from the start of the process to its end: the median of {REPETITIONS} interleaved");
    println!("repetitions; a ratio is the median of the repetitions' ratios. Processor: user and system time. The input is a file.");
    println!("uniform: any patterns; near: normal numbers whose exponents lie within 3 of 1's; shaped: as the pairs are asked;");
    println!("each of any operation. empty: no line, which leaves the start of a process.");
}
