//! How an input begins and ends.
use super::{drawn, ended, File};
use crate::random::Random;

const GOOD: &[u8] = b"sum\t3F800001\t33800000";
const OTHER: &[u8] = b"mul\t00000003\t3F000000";

/// What an input is in whole.
const WHOLE: [&[&[u8]]; 22] = [
    &[],
    &[b"\n"],
    &[b"\n\n"],
    &[b"\n\n\n"],
    &[b"\0"],
    &[b"\xFF"],
    &[b"\r"],
    &[b"\r\n"],
    &[b" "],
    &[b"sum"],
    &[GOOD],
    &[GOOD, b"\n"],
    &[GOOD, b"\n\n"],
    &[GOOD, b"\r"],
    &[GOOD, b"\r\n"],
    &[GOOD, b"\n", OTHER],
    &[GOOD, b"\n", OTHER, b"\n"],
    &[GOOD, b"\r\n", OTHER, b"\r\n"],
    &[b"\n", GOOD],
    &[b"\n", GOOD, b"\n \n"],
    &[GOOD, b"\n", b"\0"],
    &[GOOD, OTHER, b"\n"],
];

/// Then a good line cut off after each of its bytes, with a good line before it.
pub const CONSTRUCTED: u64 = (WHOLE.len() + GOOD.len()) as u64;

pub fn constructed(number: u64) -> File {
    let number = number as usize;
    match WHOLE.get(number) {
        Some(parts) => {
            let bytes = parts.concat();
            File::new(format!("{:?}", String::from_utf8_lossy(&bytes)), bytes)
        }
        None => {
            let cut = number - WHOLE.len();
            let bytes = [OTHER, b"\n", &GOOD[..cut]].concat();
            File::new(format!("a good line, and another cut off after {cut} bytes"), bytes)
        }
    }
}

/// A short list with empty lines in it, most without the last newline.
pub fn drawn(r: &mut Random) -> File {
    let lines = r.within(1, 40);
    let mut bytes = Vec::new();
    for _ in 0..lines {
        let line = if r.once_in(5) { String::new() } else { drawn::question(r).shown() };
        bytes.extend(ended(line));
    }
    let file = File::new(format!("{lines} lines, some of them empty"), bytes);
    if r.once_in(4) {
        file
    } else {
        file.unended()
    }
}
