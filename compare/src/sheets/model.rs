//! The reference for the program: all that is read, to all that is printed.
use super::line::{self, Asked};
use super::sheet::{sheet, Line, Sheet};
use crate::pattern::is_finite;
use crate::step::Step;
use crate::totals::model::{Term, Total};

/// The most lines that are answered.
pub const MOST: usize = 32_768;

pub fn printed(input: &[u8]) -> String {
    let mut page = Page::new();
    for (i, line) in lines(input).enumerate() {
        if i == MOST {
            page.text.push_str("stop\t11\n");
            return page.text;
        }
        page.answer(i + 1, line);
    }
    page.ended()
}

/// A line ends at a newline, or where the input does. Nothing after the last newline is no line.
pub fn lines(input: &[u8]) -> impl Iterator<Item = &[u8]> {
    input.split_inclusive(|&byte| byte == b'\n').map(|line| line.strip_suffix(b"\n").unwrap_or(line))
}

struct Page {
    text: String,
    total: Total,
    good: usize,
    bad: usize,
}

impl Page {
    fn new() -> Page {
        Page { text: String::new(), total: Total::CLEARED, good: 0, bad: 0 }
    }

    fn answer(&mut self, number: usize, line: &[u8]) {
        match line::read(line) {
            Ok(asked) => {
                self.good += 1;
                self.write(number, asked);
            }
            Err(refusal) => {
                self.bad += 1;
                self.text.push_str(&format!("bad\t{number}\t{refusal}\n"));
            }
        }
    }

    fn write(&mut self, number: usize, asked: Asked) {
        let sheet = sheet(asked.operation, asked.x, asked.y);
        self.text.push_str(&format!("ask\t{number}\t{}\n", asked.shown()));
        for (i, line) in sheet.lines.iter().enumerate() {
            self.text.push_str(&shown(i + 1, line));
        }
        let Sheet { first, second, flags, .. } = sheet;
        self.text.push_str(&format!("pair\t{first:08X}\t{second:08X}\t{}\n", flags.shown()));
        // A pair is finite in both or in neither.
        if is_finite(first) {
            self.total = self.total.with(&Term::pattern(first)).with(&Term::pattern(second));
        }
    }

    fn ended(mut self) -> String {
        assert!(self.total.fits(), "a full list has no more terms than fit");
        let read = self.total.reading();
        self.text.push_str(&format!("total\t{:08X}\t{:08X}\n", read.first, read.second));
        self.text.push_str(&format!("end\t{}\t{}\n", self.good, self.bad));
        self.text
    }
}

/// A step's line: `-` stands for the third operand by the operation, whatever the word is.
fn shown(number: usize, line: &Line) -> String {
    let Line { step, operands: q, result, mark } = line;
    let third = if *step == Step::Fma { format!("{:08X}", q.z) } else { "-".to_string() };
    let operands = format!("{:08X}\t{:08X}\t{third}", q.x, q.y);
    format!("step\t{number}\t{}\t{operands}\t{result:08X}\t{mark}\n", step.name())
}
