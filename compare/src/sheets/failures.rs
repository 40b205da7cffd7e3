//! Trials of calls that fail: the program says so in one line on standard error, prints no more, and ends.
use super::model;
use super::program::{ended, kill, Process};
use std::fs::File;
use std::io::{pipe, PipeReader, PipeWriter, Read, Write};
use std::os::fd::AsRawFd;
use std::path::{Path, PathBuf};
use std::process::{Command, Stdio};
use std::time::Duration;

/// The program has ended by then, though its input may stay open.
const SOON: Duration = Duration::from_secs(4);
/// What does not end is not waited for as long.
const SHORTLY: Duration = Duration::from_secs(1);
const QUESTION: &[u8] = b"sum\t3F800001\t33800000\n";
/// Their text is more than a pipe holds, and more than the limit of a file's size.
const MANY: usize = 2_000;
/// A few, and a line that has not ended.
const FEW: usize = 3;
const BEGUN: &[u8] = b"sum\t3F800001\t3380";

#[derive(Clone, Copy, PartialEq)]
pub enum Call {
    Read,
    Write,
}

#[derive(Clone, Copy)]
enum Input {
    Folder,
    Closed,
    /// So many questions and a begun line, and then a non-blocking pipe that has nothing ready.
    Unready,
    /// So many questions, and a pipe that stays open.
    Open(usize),
}

#[derive(Clone, Copy)]
enum Output {
    Pipe,
    Closed,
    FullDevice,
    /// A file that may not grow beyond a limit; the signal for that is ignored.
    Limited,
    /// A non-blocking pipe that nobody reads while the program runs.
    Unready,
}

struct Trial {
    about: &'static str,
    fails: Call,
    input: Input,
    output: Output,
    /// What the system calls the fault.
    because: &'static str,
}

const TRIALS: [Trial; 8] = [
    read("a folder as input", Input::Folder, "Is a directory"),
    read("a closed input", Input::Closed, "Bad file descriptor"),
    read("a non-blocking input that is not ready", Input::Unready, "Resource temporarily unavailable"),
    written("an output on a full device", FEW, Output::FullDevice, "No space left on device"),
    written("much output on a full device", MANY, Output::FullDevice, "No space left on device"),
    written("a closed output", FEW, Output::Closed, "Bad file descriptor"),
    written("an output file at the limit of its size", MANY, Output::Limited, "File too large"),
    written("a non-blocking output that is full", MANY, Output::Unready, "Resource temporarily unavailable"),
];

const fn read(about: &'static str, input: Input, because: &'static str) -> Trial {
    Trial { about, fails: Call::Read, input, output: Output::Pipe, because }
}

const fn written(about: &'static str, questions: usize, output: Output, because: &'static str) -> Trial {
    Trial { about, fails: Call::Write, input: Input::Open(questions), output, because }
}

pub const COUNT: usize = TRIALS.len();

/// The trials that the program does not pass: what each is about, and what happened.
pub fn failed(program: &Process) -> Vec<String> {
    TRIALS.iter().filter_map(|trial| fault(program, trial, SOON)).collect()
}

/// A trial of a failing call that the program passes though it should fail all of that call's.
pub fn not_failed(program: &Process, call: Call) -> Option<&'static str> {
    let mut trials = TRIALS.iter().filter(|trial| trial.fails == call);
    trials.find(|trial| fault(program, trial, SHORTLY).is_none()).map(|trial| trial.about)
}

fn fault(program: &Process, trial: &Trial, within: Duration) -> Option<String> {
    let what = match run(program, trial, within) {
        Ok(seen) => wrong(trial, &seen),
        Err(what) => Some(what.to_string()),
    };
    what.map(|what| format!("{}: {what}", trial.about))
}

/// What a run left.
struct Seen {
    in_time: bool,
    printed: Vec<u8>,
    said: String,
}

fn wrong(trial: &Trial, seen: &Seen) -> Option<String> {
    let (says, because) = (words(trial.fails), trial.because);
    let printed = String::from_utf8_lossy(&seen.printed);
    if !seen.in_time {
        return Some("it did not end".to_string());
    }
    if seen.said != format!("sheet: {says}: {because}\n") {
        return Some(format!("it said {:?} on standard error", seen.said));
    }
    let right = model::printed(&input(trial.input));
    match trial.fails {
        Call::Read if printed != answers(&right) => Some(format!("it printed {printed:?}")),
        Call::Write if !right.starts_with(&*printed) => Some("it printed other text, or went on".to_string()),
        Call::Write if printed.len() == right.len() => Some("no write failed".to_string()),
        _ => None,
    }
}

fn words(call: Call) -> &'static str {
    match call {
        Call::Read => "the questions cannot be read",
        Call::Write => "the sheets cannot be written",
    }
}

/// The whole lines of an input.
fn input(input: Input) -> Vec<u8> {
    match input {
        Input::Folder | Input::Closed => Vec::new(),
        Input::Unready => QUESTION.repeat(FEW),
        Input::Open(questions) => QUESTION.repeat(questions),
    }
}

/// A text without its `total` and `end`.
fn answers(text: &str) -> String {
    text.split_inclusive('\n').filter(|line| !line.starts_with("total") && !line.starts_with("end")).collect()
}

/// A descriptor that is closed is made so by the shell, and so is a limit.
fn command(program: &Process, trial: &Trial) -> Command {
    match (trial.input, trial.output) {
        (Input::Closed, _) => program.through(r#"exec "$0" "$@" <&-"#),
        (_, Output::Closed) => program.through(r#"exec "$0" "$@" >&-"#),
        (_, Output::Limited) => program.through(r#"trap '' XFSZ; ulimit -f 64; exec "$0" "$@""#),
        _ => program.command(),
    }
}

fn run(program: &Process, trial: &Trial, within: Duration) -> std::io::Result<Seen> {
    let mut command = command(program, trial);
    let writer = opened(&mut command, trial.input)?;
    let kept = directed(&mut command, trial.output)?;
    let mut child = command.stderr(Stdio::piped()).spawn()?;
    // The parent's copies of the child's descriptors go with the command.
    drop(command);
    let in_time = std::thread::scope(|scope| {
        let open = writer.map(|(mut writer, bytes)| {
            // The input stays open until the run is over.
            scope.spawn(move || writer.write_all(&bytes).map(|()| writer))
        });
        let in_time = ended(&mut child, within).is_some();
        kill(&mut child);
        drop(open);
        in_time
    });
    let (mut printed, mut said) = (Vec::new(), String::new());
    match kept {
        Kept::Pipe(mut reader) => drop(reader.read_to_end(&mut printed)?),
        Kept::File(path) => {
            printed = std::fs::read(&path)?;
            std::fs::remove_file(path)?;
        }
        Kept::Nothing => {}
    }
    child.stderr.take().expect("a pipe").read_to_string(&mut said)?;
    Ok(Seen { in_time, printed, said })
}

/// Where what was printed is found.
enum Kept {
    Pipe(PipeReader),
    File(PathBuf),
    Nothing,
}

/// Opens the input, with what is still to be written to it.
fn opened(command: &mut Command, input: Input) -> std::io::Result<Option<(PipeWriter, Vec<u8>)>> {
    match input {
        Input::Closed => command.stdin(Stdio::null()),
        Input::Folder => command.stdin(File::open(env!("CARGO_MANIFEST_DIR"))?),
        Input::Unready => {
            let (reader, mut writer) = pipe()?;
            not_blocking(&reader)?;
            writer.write_all(&[QUESTION.repeat(FEW).as_slice(), BEGUN].concat())?;
            command.stdin(reader);
            return Ok(Some((writer, Vec::new())));
        }
        Input::Open(questions) => {
            let (reader, writer) = pipe()?;
            command.stdin(reader);
            return Ok(Some((writer, QUESTION.repeat(questions))));
        }
    };
    Ok(None)
}

fn directed(command: &mut Command, output: Output) -> std::io::Result<Kept> {
    match output {
        Output::Closed => command.stdout(Stdio::null()),
        Output::FullDevice => command.stdout(File::options().write(true).open("/dev/full")?),
        Output::Pipe | Output::Unready => {
            let (reader, writer) = pipe()?;
            if let Output::Unready = output {
                not_blocking(&writer)?;
            }
            command.stdout(writer);
            return Ok(Kept::Pipe(reader));
        }
        Output::Limited => {
            let folder = Path::new(env!("CARGO_MANIFEST_DIR")).join("target");
            let path = folder.join(format!("limited-{}", std::process::id()));
            command.stdout(File::create(&path)?);
            return Ok(Kept::File(path));
        }
    };
    Ok(Kept::Nothing)
}

extern "C" {
    fn fcntl(descriptor: i32, command: i32, ...) -> i32;
}

const F_SETFL: i32 = 4;
const O_NONBLOCK: i32 = 0o4000;

/// Of a pipe's end, which has no other flag that could be set.
fn not_blocking(end: &impl AsRawFd) -> std::io::Result<()> {
    // SAFETY: the call takes numbers only, and the descriptor is open.
    match unsafe { fcntl(end.as_raw_fd(), F_SETFL, O_NONBLOCK) } {
        0 => Ok(()),
        _ => Err(std::io::Error::last_os_error()),
    }
}
