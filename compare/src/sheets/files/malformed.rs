//! Lines of 21 bytes that are no questions, each for one condition or for several.
use super::{drawn, ended, File};
use crate::random::Random;

const GOOD: &[u8; 21] = b"sum\t3F800001\t33800000";
/// The letters, the places of the tabs, and those of the digits.
const TABS: [usize; 2] = [3, 12];

fn digits() -> impl Iterator<Item = usize> {
    (4..12).chain(13..21)
}

const LETTERS: [&[u8; 3]; 30] = [
    b"SUM",
    b"Sum",
    b"sUm",
    b"suM",
    b"DIF",
    b"Dif",
    b"MUL",
    b"Mul",
    b"add",
    b"sub",
    b"fma",
    b"div",
    b"sun",
    b"tum",
    b"som",
    b"mum",
    b"mal",
    b"mud",
    b"dig",
    b"dof",
    b"bif",
    b"sif",
    b"dul",
    b"mif",
    b"\0\0\0",
    b"\xFF\xFF\xFF",
    b"su\t",
    b"   ",
    b"\0um",
    b"su\r",
];

pub const CONSTRUCTED: u64 = 6;

pub fn constructed(number: u64) -> File {
    match number {
        0 => of_lines("letters that are unknown", LETTERS.iter().flat_map(|&l| with_letters(l)).collect()),
        1 => of_lines(
            "every byte in place of a tab",
            TABS.iter().flat_map(|&place| every_byte(place)).collect(),
        ),
        2 => of_lines("every byte in place of a digit", digits().flat_map(every_byte).collect()),
        3 => of_lines("every byte in place of a letter", (0..3).flat_map(every_byte).collect()),
        4 => of_lines("several conditions at once", several()),
        _ => of_lines("carriage returns, spaces and the like", others()),
    }
}

/// With good lines between, so that a count of one kind is not a count of all.
fn of_lines(about: &str, lines: Vec<Vec<u8>>) -> File {
    let mut bytes = Vec::new();
    for (i, line) in lines.into_iter().enumerate() {
        bytes.extend(ended(line));
        if i % 7 == 3 {
            bytes.extend(ended(*GOOD));
        }
    }
    File::new(about, bytes)
}

fn with(place: usize, byte: u8) -> Vec<u8> {
    let mut line = GOOD.to_vec();
    line[place] = byte;
    line
}

/// A newline among them makes two lines of one.
fn every_byte(place: usize) -> Vec<Vec<u8>> {
    (0..=255).map(|byte| with(place, byte)).collect()
}

/// Alone, and with a tab missing or a digit wrong besides.
fn with_letters(letters: &[u8; 3]) -> [Vec<u8>; 3] {
    [*GOOD, *b"sum 3F800001\t33800000", *b"sum\t3F80000g\t33800000"].map(|mut line| {
        line[..3].copy_from_slice(letters);
        line.to_vec()
    })
}

fn several() -> Vec<Vec<u8>> {
    let lines: [&[u8]; 14] = [
        b"sum 3F800001 33800000",
        b"sum 3F800001\t3380000g",
        b"sum\t3f800001 33800000",
        b"SUM\t3f800001\t33800000",
        b"SUM 3F800001 33800000",
        b"SUM 3f800001 3380000g",
        b"SUM 3f800001 3380000gh",
        b"SUM\t3F800001\t33800000\r",
        b"sum 3F800001 3380000",
        b"sum\t3F80000\t333800000",
        b"sum3F800001\t\t33800000",
        b"mul\t\t\t\t\t\t\t\t\t\t\t\t\t\t\t\t\t\t",
        b"dif                  ",
        b"\t\t\t\t\t\t\t\t\t\t\t\t\t\t\t\t\t\t\t\t\t",
    ];
    lines.iter().map(|line| line.to_vec()).collect()
}

fn others() -> Vec<Vec<u8>> {
    let lines: [&[u8]; 16] = [
        b"sum\t3F800001\t33800000\r",
        b"sum\t3F800001\t3380000\r",
        b"\rsum\t3F800001\t33800000",
        b" sum\t3F800001\t33800000",
        b"sum\t3F800001\t33800000 ",
        b"sum\t 3F80001\t33800000",
        b"sum\t3F80001 \t33800000",
        b"sum\t+F800001\t33800000",
        b"sum\t0x800001\t33800000",
        b"sum\t3f800001\t33800000",
        b"sum\t3F8\t0001\t3380000",
        b"sum\t3F800001\t33800000\0",
        b"sum\t3F800001\t33800000\xFF",
        b"sum\t3F800001\t3380000\x1A",
        b"\xEF\xBB\xBFsum\t3F800001\t33800000",
        b"ask\t1\tsum\t3F800001\t338",
    ];
    lines.iter().map(|line| line.to_vec()).collect()
}

/// Good lines with a byte changed here and there, to one that is likely to be taken for another.
pub fn drawn(r: &mut Random) -> File {
    const BYTES: &[u8] = b"\0\t\x0B\r /09:@AFGZ[`afgmsu\x7F\x80\xFF";
    let lines = r.within(1, 120);
    let mut bytes = Vec::new();
    for _ in 0..lines {
        let mut line = drawn::question(r).shown().into_bytes();
        for _ in 0..r.within(0, 2) {
            let place = r.within(0, line.len() as i32 - 1) as usize;
            line[place] = BYTES[r.within(0, BYTES.len() as i32 - 1) as usize];
        }
        bytes.extend(ended(line));
    }
    File::new(format!("{lines} lines with bytes changed"), bytes)
}
