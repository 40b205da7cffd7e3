//! Writing lines into a large block.
use super::question::Question;
use std::io::Write;

/// The block is written out when it is as full as this.
const FULL: usize = 1 << 16;
/// More than a question's lines take: 13 steps of 50 bytes at most, `ask`, `pair`, and the last lines.
const ROOM: usize = 1024;

#[derive(Clone, Copy)]
pub enum Operation {
    Add,
    Sub,
    Mul,
    Fma,
}

/// Both digits of a byte, high one first, as they lie in memory.
const DIGITS: [u16; 256] = {
    let mut table = [0; 256];
    let mut i = 0;
    while i < 256 {
        let digits = b"0123456789ABCDEF";
        table[i] = u16::from_le_bytes([digits[i >> 4], digits[i & 15]]);
        i += 1;
    }
    table
};

/// How the line of a step begins: for each operation, by the step's number.
const BEGINNINGS: [[[u8; 12]; 14]; 4] = {
    let names = [b"add", b"sub", b"mul", b"fma"];
    let mut table = [[[0; 12]; 14]; 4];
    let mut i = 0;
    while i < 4 * 14 {
        table[i / 14][i % 14] = beginning(names[i / 14], i % 14);
        i += 1;
    }
    table
};

/// Numbers of one digit leave a byte unused at the end.
const fn beginning(name: &[u8; 3], number: usize) -> [u8; 12] {
    let [a, b, c] = *name;
    let last = b'0' + (number % 10) as u8;
    if number < 10 {
        [b's', b't', b'e', b'p', b'\t', last, b'\t', a, b, c, b'\t', 0]
    } else {
        [b's', b't', b'e', b'p', b'\t', b'1', last, b'\t', a, b, c, b'\t']
    }
}

#[inline(always)]
fn digits(pattern: u32) -> [u8; 8] {
    let [a, b, c, d] = pattern.to_be_bytes().map(|byte| u64::from(DIGITS[byte as usize]));
    (a | b << 16 | c << 32 | d << 48).to_le_bytes()
}

pub struct Text {
    block: Vec<u8>,
    used: usize,
    /// Steps written since `ask`.
    step: usize,
}

impl Text {
    pub fn new() -> Text {
        Text { block: vec![0; FULL + ROOM], used: 0, step: 0 }
    }

    /// Before each question, and before the last lines.
    #[inline(always)]
    pub fn make_room(&mut self, output: &mut impl Write) -> std::io::Result<()> {
        if self.used < FULL {
            return Ok(());
        }
        self.flush(output)
    }

    pub fn flush(&mut self, output: &mut impl Write) -> std::io::Result<()> {
        output.write_all(&self.block[..self.used])?;
        self.used = 0;
        Ok(())
    }

    #[inline(always)]
    fn put<const N: usize>(&mut self, bytes: [u8; N]) {
        debug_assert!(self.used + N <= self.block.len());
        // SAFETY: `make_room` left ROOM bytes, more than a question's lines are.
        unsafe { self.block.as_mut_ptr().add(self.used).cast::<[u8; N]>().write(bytes) };
        self.used += N;
    }

    fn number(&mut self, number: u32) {
        let mut digits = [0; 10];
        let (mut left, mut at) = (number, 10);
        loop {
            at -= 1;
            digits[at] = b'0' + (left % 10) as u8;
            left /= 10;
            if left == 0 {
                break;
            }
        }
        digits[at..].iter().for_each(|&digit| self.put([digit]));
    }

    #[inline(always)]
    pub fn ask(&mut self, number: u32, question: &Question) {
        self.step = 0;
        self.put(*b"ask\t");
        self.number(number);
        self.put(*b"\t");
        self.put(*question.line);
        self.put(*b"\n");
    }

    #[inline(always)]
    fn begin(&mut self, operation: Operation, x: u32, y: u32) {
        self.step += 1;
        self.put(BEGINNINGS[operation as usize][self.step]);
        self.used -= usize::from(self.step < 10);
        self.put(digits(x));
        self.put(*b"\t");
        self.put(digits(y));
    }

    #[inline(always)]
    pub fn two(&mut self, operation: Operation, [x, y]: [u32; 2], result: u32, mark: u32) {
        self.begin(operation, x, y);
        self.put(*b"\t-\t");
        self.put(digits(result));
        self.put([b'\t', b'0' + mark as u8, b'\n']);
    }

    #[inline(always)]
    pub fn three(&mut self, operation: Operation, [x, y, z]: [u32; 3], result: u32, mark: u32) {
        self.begin(operation, x, y);
        self.put(*b"\t");
        self.put(digits(z));
        self.put(*b"\t");
        self.put(digits(result));
        self.put([b'\t', b'0' + mark as u8, b'\n']);
    }

    #[inline(always)]
    fn patterns(&mut self, first: u32, second: u32) {
        self.put(digits(first));
        self.put(*b"\t");
        self.put(digits(second));
    }

    #[inline(always)]
    pub fn pair(&mut self, first: u32, second: u32, flags: &[u8]) {
        self.put(*b"pair\t");
        self.patterns(first, second);
        self.put(*b"\t");
        flags.iter().for_each(|&flag| self.put([flag]));
        self.put(*b"\n");
    }

    pub fn bad(&mut self, number: u32, refusal: u32) {
        self.put(*b"bad\t");
        self.number(number);
        self.put([b'\t', b'0' + refusal as u8, b'\n']);
    }

    pub fn stop(&mut self) {
        self.put(*b"stop\t11\n");
    }

    pub fn total(&mut self, first: u32, second: u32) {
        self.put(*b"total\t");
        self.patterns(first, second);
        self.put(*b"\n");
    }

    pub fn end(&mut self, good: u32, bad: u32) {
        self.put(*b"end\t");
        self.number(good);
        self.put(*b"\t");
        self.number(bad);
        self.put(*b"\n");
    }
}
