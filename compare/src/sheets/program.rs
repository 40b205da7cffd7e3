//! What is tested: the program `sheet`, as a process that is written to and read from through pipes.
use super::files::cuts::Cuts;
use super::files::File;
use std::io::{Read, Write};
use std::path::{Path, PathBuf};
use std::process::{Child, ChildStdin, Command, Stdio};
use std::sync::mpsc;
use std::time::{Duration, Instant};

/// Whatever answers a file: the program, or a text with a planted fault. `right` is what should be printed.
pub trait Program: Sync {
    fn printed(&self, file: &File, right: &str) -> Result<Vec<u8>, String>;
}

/// A program of the file system with its arguments.
#[derive(Clone)]
pub struct Process {
    path: PathBuf,
    arguments: Vec<String>,
}

/// A file is answered by then, or the program is said to hang.
const PATIENCE: Duration = Duration::from_secs(20);
/// After its last byte, the program has ended by then.
const AFTER_LAST: Duration = Duration::from_secs(5);
const PAUSE: Duration = Duration::from_micros(150);

impl Process {
    /// `crates/sheet/out/sheet` of the repository that this program is built in.
    pub fn sheet() -> Process {
        let root = Path::new(env!("CARGO_MANIFEST_DIR")).join("..");
        Process { path: root.join("crates/sheet/out/sheet"), arguments: Vec::new() }
    }

    /// A path, and arguments after it, with spaces between.
    pub fn named(words: &str) -> Process {
        let mut words = words.split(' ').map(str::to_string);
        let path = PathBuf::from(words.next().unwrap_or_default());
        Process { path, arguments: words.collect() }
    }

    /// This program, with another command.
    pub fn own(command: &[&str]) -> Process {
        let path = std::env::current_exe().expect("a running program has a path");
        Process { path, arguments: command.iter().map(|word| word.to_string()).collect() }
    }

    /// Why it cannot be run.
    pub fn missing(&self) -> Option<String> {
        let there = self.path.is_file();
        (!there).then(|| {
            format!("{} is missing: run `rt run` in crates/sheet first", self.shown())
        })
    }

    pub fn shown(&self) -> String {
        self.path.display().to_string()
    }

    pub fn command(&self) -> Command {
        let mut command = Command::new(&self.path);
        command.args(&self.arguments);
        command
    }

    /// Through the shell, whose words name it `"$0" "$@"`.
    pub fn through(&self, words: &str) -> Command {
        let mut command = Command::new("sh");
        command.arg("-c").arg(words).arg(&self.path).args(&self.arguments);
        command
    }

    pub fn started(&self) -> Result<Child, String> {
        let mut command = self.command();
        command.stdin(Stdio::piped()).stdout(Stdio::piped());
        command.spawn().map_err(|what| format!("{}: {what}", self.shown()))
    }
}

impl Program for Process {
    fn printed(&self, file: &File, right: &str) -> Result<Vec<u8>, String> {
        let mut child = self.started()?;
        let input = child.stdin.take().expect("a pipe");
        let output = child.stdout.take().expect("a pipe");
        // What goes on for long after the right text is wrong, and is not read to its end.
        let mut output = output.take(right.len() as u64 + 100_000);
        std::thread::scope(|scope| {
            let (sender, receiver) = mpsc::channel();
            scope.spawn(move || write(input, &file.bytes, file.cuts));
            scope.spawn(move || {
                let mut bytes = Vec::new();
                let read = output.read_to_end(&mut bytes).map(|_| bytes);
                // Nobody receives it after the time is over.
                let _ = sender.send(read);
            });
            let read = receiver.recv_timeout(PATIENCE);
            let ended = if read.is_ok() { ended(&mut child, AFTER_LAST) } else { None };
            if ended.is_none() {
                kill(&mut child);
            }
            let bytes = read.map_err(|_| format!("it printed no end within {} s", PATIENCE.as_secs()))?;
            let bytes = bytes.map_err(|what| format!("its output cannot be read: {what}"))?;
            let status =
                ended.ok_or(format!("it did not end within {} s of its last byte", AFTER_LAST.as_secs()))?;
            match status.code() {
                Some(_) => Ok(bytes),
                None => Err(format!("it was ended: {status}")),
            }
        })
    }
}

/// In the file's cuts. A program that has stopped reads no further: that is no fault of the writer's.
fn write(mut input: ChildStdin, bytes: &[u8], cuts: Cuts) {
    let (mut portions, mut rest) = (cuts.portions(), bytes);
    while !rest.is_empty() {
        let (portion, after) = rest.split_at(portions.size().min(rest.len()));
        if input.write_all(portion).is_err() {
            return;
        }
        if portions.pauses() {
            std::thread::sleep(PAUSE);
        }
        rest = after;
    }
}

/// The exit status, if there is one in time.
pub fn ended(child: &mut Child, within: Duration) -> Option<std::process::ExitStatus> {
    let start = Instant::now();
    loop {
        match child.try_wait() {
            Ok(Some(status)) => return Some(status),
            Ok(None) if start.elapsed() < within => std::thread::sleep(Duration::from_micros(200)),
            _ => return None,
        }
    }
}

pub fn kill(child: &mut Child) {
    // It may have ended meanwhile, which is all that is wanted.
    let _ = child.kill();
    let _ = child.wait();
}
