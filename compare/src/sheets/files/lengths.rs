//! Lines of other lengths than 21 bytes.
use super::{ended, File};
use crate::random::Random;
use crate::sheets::line::LENGTH;

const GOOD: &[u8] = b"sum\t3F800001\t33800000";

/// Lengths about powers of two, where a count or a buffer may end, and those that are 21 above one.
const LONG: [usize; 28] = [
    63, 64, 65, 127, 128, 129, 255, 256, 257, 277, 511, 512, 513, 1023, 1024, 1025, 4095, 4096, 4097, 4117,
    8192, 65_535, 65_536, 65_537, 65_557, 131_072, 131_093, 262_165,
];

/// Longest lines alone, each with what it is made of.
const LONGEST: [(usize, &[u8]); 6] = [
    (100_000, b"0"),
    (100_001, GOOD),
    (1_000_003, b"sum\t3F800001\t33800000\r"),
    (300_000, b"\0"),
    (300_001, b"\xFF"),
    (300_002, b"\t"),
];

pub const CONSTRUCTED: u64 = 4 + LONGEST.len() as u64;

pub fn constructed(number: u64, r: &mut Random) -> File {
    match number {
        0 => each("a good line cut or continued, to 0 to 40 bytes", 0..=40),
        1 => each("a good line continued to lengths about powers of two", LONG),
        2 => File::new("empty lines and good ones in turn", [GOOD, b"\n\n", GOOD, b"\n\n\n"].concat()),
        3 => any_bytes(r),
        _ => longest(LONGEST[number as usize - 4]),
    }
}

/// A good line that goes on with digits, cut at each length, with a good line after it.
fn each(about: &str, lengths: impl IntoIterator<Item = usize>) -> File {
    let lines = lengths.into_iter().flat_map(|length| {
        let line: Vec<u8> = GOOD.iter().copied().chain(std::iter::repeat(b'0')).take(length).collect();
        [ended(line), ended(GOOD)].concat()
    });
    File::new(about, lines.collect())
}

/// A line of one thing again and again, between two good ones.
fn longest((length, of): (usize, &[u8])) -> File {
    let line: Vec<u8> = of.iter().copied().cycle().take(length).collect();
    let about = format!("a line of {length} bytes, {:?} again and again", String::from_utf8_lossy(of));
    File::new(about, [ended(GOOD), ended(line), ended(GOOD)].concat())
}

/// A million bytes of any kind but newlines, which make one line.
fn any_bytes(r: &mut Random) -> File {
    let line: Vec<u8> =
        (0..1 << 20).map(|_| r.bits(8) as u8).map(|b| if b == b'\n' { 0 } else { b }).collect();
    File::new("a line of 2^20 bytes of any kind", [ended(GOOD), ended(line), ended(GOOD)].concat())
}

/// Good lines and lines of any length, most of them short, which begin like good ones.
pub fn drawn(r: &mut Random) -> File {
    let lines = r.within(1, 60);
    let mut bytes = Vec::new();
    for _ in 0..lines {
        let length = match r.within(0, 9) {
            0..=2 => LENGTH as i32,
            3..=7 => r.within(0, 45),
            8 => r.within(0, 1000),
            _ => r.within(0, 140_000),
        };
        bytes.extend(GOOD.iter().copied().cycle().take(length as usize));
        bytes.push(b'\n');
    }
    let file = File::new(format!("{lines} lines of any length"), bytes);
    if r.once_in(4) {
        file.unended()
    } else {
        file
    }
}
