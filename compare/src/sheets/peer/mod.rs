//! The same program on the processor's floats, in Rust and for speed: the measure that `sheet` is held to.
//!
//! It reads and writes in large blocks, and keeps no more than one of each and a total.
pub mod floats;

mod question;
mod text;

use crate::pattern::{is_finite, SIGN};
use crate::totals::model::Total;
use crate::totals::plain::{self, Plain};
use question::{Question, LENGTH};
use std::io::{ErrorKind, Read, Write};
use std::process::ExitCode;
use text::Text;

const BLOCK: usize = 1 << 16;
const MOST: u32 = 32_768;

/// From standard input to standard output. A closed output ends it.
pub fn run() -> ExitCode {
    let (input, output) = (std::io::stdin().lock(), std::io::stdout().lock());
    // Standard output would look for newlines in all that it is given.
    let output = unbuffered(output);
    let written = match output {
        Ok(mut output) => answered(input, &mut output),
        Err(what) => Err(what),
    };
    match written {
        Ok(()) => ExitCode::SUCCESS,
        Err(_) => ExitCode::FAILURE,
    }
}

/// The same open file, without Rust's buffer before it.
fn unbuffered(output: std::io::StdoutLock) -> std::io::Result<std::fs::File> {
    use std::os::fd::AsFd;
    Ok(std::fs::File::from(output.as_fd().try_clone_to_owned()?))
}

fn answered(input: impl Read, output: &mut impl Write) -> std::io::Result<()> {
    if is_x86_feature_detected!("fma") {
        // SAFETY: the processor has the feature.
        unsafe { answered_by_instruction(input, output) }
    } else {
        pages(input, output)
    }
}

/// # Safety
/// The processor has the feature `fma`.
#[target_feature(enable = "fma")]
unsafe fn answered_by_instruction(input: impl Read, output: &mut impl Write) -> std::io::Result<()> {
    pages(input, output)
}

/// Inlined, so that the floats within have the caller's instructions.
#[inline(always)]
fn pages(mut input: impl Read, output: &mut impl Write) -> std::io::Result<()> {
    let mut block = Block::new();
    let mut page = Page::new();
    while block.read(&mut input)? {
        block.end_long_line(&mut page);
        while let Some(length) = page.line(block.rest(), output)? {
            block.at += length;
        }
        if page.number == MOST && block.has_more() {
            return page.stopped(output);
        }
        block.keep_rest();
    }
    page.text.make_room(output)?;
    if block.too_long {
        page.refuse(1);
    } else if block.filled > 0 {
        page.answer(&block.bytes[..block.filled]);
    }
    page.ended(output)
}

/// What was read, and how far it is answered.
struct Block {
    bytes: Vec<u8>,
    at: usize,
    filled: usize,
    /// The line at hand is longer than any good one: its bytes are not kept.
    too_long: bool,
}

impl Block {
    fn new() -> Block {
        Block { bytes: vec![0; BLOCK + LENGTH + 1], at: 0, filled: 0, too_long: false }
    }

    /// More bytes after those that were kept. False at the end of the input.
    fn read(&mut self, input: &mut impl Read) -> std::io::Result<bool> {
        loop {
            match input.read(&mut self.bytes[self.filled..]) {
                Err(what) if what.kind() == ErrorKind::Interrupted => {}
                read => {
                    let read = read?;
                    self.filled += read;
                    return Ok(read > 0);
                }
            }
        }
    }

    fn rest(&self) -> &[u8] {
        &self.bytes[self.at..self.filled]
    }

    /// Goes on to the end of a line that is too long, if it is there, and refuses the line.
    fn end_long_line(&mut self, page: &mut Page) {
        if !self.too_long || page.number == MOST {
            return;
        }
        match self.rest().iter().position(|&byte| byte == b'\n') {
            Some(end) => {
                page.refuse(1);
                (self.at, self.too_long) = (self.at + end + 1, false);
            }
            None => self.at = self.filled,
        }
    }

    /// Another line has begun.
    fn has_more(&self) -> bool {
        self.at < self.filled || self.too_long
    }

    /// Keeps the bytes of a line that is not ended, or only that it is too long.
    fn keep_rest(&mut self) {
        let left = self.filled - self.at;
        if left > LENGTH {
            (self.filled, self.too_long) = (0, true);
        } else {
            self.bytes.copy_within(self.at..self.filled, 0);
            self.filled = left;
        }
        self.at = 0;
    }
}

struct Page {
    text: Text,
    total: Plain,
    /// Terms are in the total, and whether one of them was not -0.
    entered: bool,
    sign_word: u32,
    /// Lines answered.
    number: u32,
    bad: u32,
}

impl Page {
    fn new() -> Page {
        Page { text: Text::new(), total: Plain::CLEARED, entered: false, sign_word: 0, number: 0, bad: 0 }
    }

    /// Answers the line that the bytes begin with; where the next one begins. None if no line ends in them, or
    /// no more are answered.
    #[inline(always)]
    fn line(&mut self, bytes: &[u8], output: &mut impl Write) -> std::io::Result<Option<usize>> {
        if self.number == MOST {
            return Ok(None);
        }
        self.text.make_room(output)?;
        // A good line has no newline among its bytes, so that this one ends it.
        if bytes.len() > LENGTH && bytes[LENGTH] == b'\n' {
            let line: &[u8; LENGTH] = bytes[..LENGTH].try_into().expect("so many");
            if let Ok(question) = question::read(line) {
                self.number += 1;
                self.write(question);
                return Ok(Some(LENGTH + 1));
            }
        }
        let Some(end) = bytes.iter().position(|&byte| byte == b'\n') else { return Ok(None) };
        self.answer(&bytes[..end]);
        Ok(Some(end + 1))
    }

    #[inline(always)]
    fn answer(&mut self, line: &[u8]) {
        match <&[u8; LENGTH]>::try_from(line).map_err(|_| 1).and_then(question::read) {
            Ok(question) => {
                self.number += 1;
                self.write(question);
            }
            Err(refusal) => self.refuse(refusal),
        }
    }

    fn refuse(&mut self, refusal: u32) {
        self.number += 1;
        self.bad += 1;
        self.text.bad(self.number, refusal);
    }

    #[inline(always)]
    fn write(&mut self, question: Question) {
        self.text.ask(self.number, &question);
        let (first, second) = floats::sheet(&question, &mut self.text);
        self.text.pair(first, second, floats::flags(&question, first, second));
        if is_finite(first) {
            plain::add_pattern(&mut self.total, first);
            plain::add_pattern(&mut self.total, second);
            self.entered = true;
            self.sign_word |= u32::from(first != SIGN || second != SIGN);
        }
    }

    fn stopped(mut self, output: &mut impl Write) -> std::io::Result<()> {
        self.text.make_room(output)?;
        self.text.stop();
        self.text.flush(output)
    }

    fn ended(mut self, output: &mut impl Write) -> std::io::Result<()> {
        self.text.make_room(output)?;
        let mut words = self.total.words();
        words.extend([if self.entered { 2 * MOST } else { 0 }, self.sign_word]);
        let read = Total::of(&words).reading();
        self.text.total(read.first, read.second);
        self.text.end(self.number - self.bad, self.bad);
        self.text.flush(output)
    }
}
