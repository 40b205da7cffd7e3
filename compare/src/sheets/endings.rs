//! Trials of when the program ends: at line 32,769 and at a closed output, though its input stays open.
use super::model::MOST;
use super::program::{ended, kill, Process};
use std::io::{Read, Write};
use std::process::ChildStdin;
use std::sync::mpsc;
use std::time::Duration;

/// The program has ended by then.
const SOON: Duration = Duration::from_secs(4);
/// What never ends is not waited for as long.
const SHORTLY: Duration = Duration::from_secs(1);
const QUESTION: &[u8] = b"sum\t3F800001\t33800000\n";

/// What the input does after its lines, without ever ending.
#[derive(Clone, Copy)]
enum Then {
    /// Nothing comes, and the pipe stays open.
    Silent,
    /// Questions without end.
    Questions,
    /// One line without end.
    Line,
}

/// A trial: so many questions and bytes, and what follows; whether the output is closed soon.
struct Trial {
    about: &'static str,
    questions: usize,
    then_bytes: &'static [u8],
    then: Then,
    closed: bool,
}

const TRIALS: [Trial; 6] = [
    Trial {
        about: "32,769 lines, and an input that stays open in silence",
        questions: MOST,
        then_bytes: b"\n",
        then: Then::Silent,
        closed: false,
    },
    Trial {
        about: "32,768 lines and a byte, and an input that stays open in silence",
        questions: MOST,
        then_bytes: b"s",
        then: Then::Silent,
        closed: false,
    },
    Trial {
        about: "questions without end",
        questions: MOST,
        then_bytes: b"",
        then: Then::Questions,
        closed: false,
    },
    Trial {
        about: "32,768 lines and a line without end",
        questions: MOST,
        then_bytes: b"",
        then: Then::Line,
        closed: false,
    },
    Trial {
        about: "a closed output, and an input that stays open in silence",
        questions: 20_000,
        then_bytes: b"",
        then: Then::Silent,
        closed: true,
    },
    Trial {
        about: "a closed output, and a line without end",
        questions: 20_000,
        then_bytes: b"",
        then: Then::Line,
        closed: true,
    },
];

/// The trials that the program does not pass: what each is about, and what happened.
pub fn failed(program: &Process) -> Vec<String> {
    TRIALS.iter().filter_map(|trial| fault(program, trial, SOON)).collect()
}

/// A trial of those with a closed output, or of those without, that the program passes though it should fail all.
/// They run side by side, as nearly all of the time is waiting.
pub fn not_failed(program: &Process, closed: bool) -> Option<&'static str> {
    std::thread::scope(|scope| {
        let trials = TRIALS.iter().filter(|trial| trial.closed == closed);
        let runs: Vec<_> =
            trials.map(|trial| (trial.about, scope.spawn(move || fault(program, trial, SHORTLY)))).collect();
        let mut runs =
            runs.into_iter().map(|(about, run)| (about, run.join().expect("a trial does not panic")));
        runs.find(|(_, fault)| fault.is_none()).map(|(about, _)| about)
    })
}

pub const COUNT: usize = TRIALS.len();

fn fault(program: &Process, trial: &Trial, within: Duration) -> Option<String> {
    let mut child = match program.started() {
        Ok(child) => child,
        Err(what) => return Some(what),
    };
    let input = child.stdin.take().expect("a pipe");
    let output = child.stdout.take().expect("a pipe");
    let what = std::thread::scope(|scope| {
        // Dropped at the end, which lets a silent writer go.
        let (over, is_over) = mpsc::channel::<()>();
        scope.spawn(move || write(input, trial, &is_over));
        let reader = scope.spawn(move || last_of(output, trial.closed));
        let status = ended(&mut child, within);
        kill(&mut child);
        drop(over);
        let last = reader.join().expect("a reader does not panic");
        match status {
            None => Some(format!("it did not end within {} s", within.as_secs_f64())),
            // A program may end by the signal that a closed output sends.
            Some(status) if status.code().is_none() && !trial.closed => {
                Some(format!("it was ended: {status}"))
            }
            Some(_) if !trial.closed && last != b"stop\t11\n" => {
                Some(format!("its last bytes are {:?}", String::from_utf8_lossy(&last)))
            }
            Some(_) => None,
        }
    });
    what.map(|what| format!("{}: {what}", trial.about))
}

/// The lines, and then what never ends, until the program reads no more.
fn write(mut input: ChildStdin, trial: &Trial, is_over: &mpsc::Receiver<()>) {
    let lines = [QUESTION.repeat(trial.questions).as_slice(), trial.then_bytes].concat();
    if input.write_all(&lines).is_err() {
        return;
    }
    let endless = match trial.then {
        Then::Silent => {
            // The input is held open until the trial is over.
            let _ = is_over.recv();
            return;
        }
        Then::Questions => QUESTION.repeat(100),
        Then::Line => vec![b'0'; 4096],
    };
    while input.write_all(&endless).is_ok() {}
}

/// The last eight bytes of all that is printed; or none, with the output closed after the first bytes.
fn last_of(mut output: impl Read, closed: bool) -> Vec<u8> {
    let mut block = vec![0; 65_536];
    if closed {
        let _ = output.read(&mut block[..100]);
        return Vec::new();
    }
    let mut last = Vec::new();
    while let Ok(read) = output.read(&mut block) {
        if read == 0 {
            break;
        }
        last.extend_from_slice(&block[..read]);
        last.drain(..last.len().saturating_sub(8));
    }
    last
}
