//! Faults in reading, as changes of the input that is then answered rightly.
use crate::sheets::files::{File, Shape};
use crate::sheets::model::lines;

type Row = (fn(&File) -> Vec<u8>, Shape, &'static str);

pub const FAULTS: [Row; 33] = [
    (|f| each(f, cut_at_21), Shape::Lengths, "a longer line cut to 21 bytes"),
    (|f| each(f, |l| counted_in(l, 256)), Shape::Lengths, "a length counted in 8 bits"),
    (|f| each(f, |l| counted_in(l, 65_536)), Shape::Lengths, "a length counted in 16 bits"),
    (|f| each(f, |l| split_at(l, 4096)), Shape::Lengths, "a line split at 4096 bytes"),
    (|f| each(f, |l| split_at(l, 65_536)), Shape::Lengths, "a line split at 65,536 bytes"),
    (|f| each(f, without_return), Shape::Malformed, "a carriage return dropped"),
    (|f| each(f, without_return), Shape::Ends, "a carriage return dropped"),
    (|f| each(f, trimmed), Shape::Malformed, "spaces dropped"),
    (|f| replaced(f, b'\r', b'\n'), Shape::Malformed, "a carriage return that ends a line"),
    (|f| replaced(f, 0, b'\n'), Shape::Malformed, "a byte 0 that ends a line"),
    (|f| up_to(f, 0xFF), Shape::Malformed, "a byte 255 that ends the input"),
    (|f| up_to(f, 0x1A), Shape::Malformed, "a byte 26 that ends the input"),
    (|f| each(f, lower_letters), Shape::Malformed, "letters taken in upper case"),
    (|f| each(f, upper_digits), Shape::Malformed, "digits taken in lower case"),
    (|f| each(f, |l| taken(l, 3, b' ', b'\t')), Shape::Malformed, "a space taken for a tab"),
    (|f| each(f, |l| taken(l, 12, b' ', b'\t')), Shape::Malformed, "a space taken for a tab"),
    (|f| each(f, |l| set(l, 3, b'\t')), Shape::Malformed, "a tab not looked at"),
    (|f| each(f, |l| set(l, 12, b'\t')), Shape::Malformed, "a tab not looked at"),
    (|f| each(f, |l| set(l, 0, first_letter(l))), Shape::Malformed, "a letter not looked at"),
    (|f| each(f, |l| set(l, 1, second_letter(l))), Shape::Malformed, "a letter not looked at"),
    (|f| each(f, |l| set(l, 2, third_letter(l))), Shape::Malformed, "a letter not looked at"),
    (|f| each(f, |l| valid(l, 4)), Shape::Malformed, "a digit not looked at"),
    (|f| each(f, |l| valid(l, 11)), Shape::Malformed, "a digit not looked at"),
    (|f| each(f, |l| valid(l, 13)), Shape::Malformed, "a digit not looked at"),
    (|f| each(f, |l| valid(l, 20)), Shape::Malformed, "a digit not looked at"),
    (|f| each(f, |l| taken(l, 4, b':', b'0')), Shape::Malformed, "a byte above 9 as a digit"),
    (|f| each(f, |l| taken(l, 4, b'/', b'0')), Shape::Malformed, "a byte below 0 as a digit"),
    (|f| each(f, |l| taken(l, 4, b'@', b'A')), Shape::Malformed, "a byte below A as a digit"),
    (|f| each(f, |l| taken(l, 4, b'G', b'F')), Shape::Malformed, "a byte above F as a digit"),
    (without_empty, Shape::Ends, "empty lines passed over"),
    (without_unended, Shape::Ends, "a last line without newline dropped"),
    (with_another, Shape::Ends, "an empty line after the last newline"),
    (without_first_byte, Shape::Ends, "the first byte lost"),
];

/// Every line changed, and ended as it was.
fn each(file: &File, changed: impl Fn(&[u8]) -> Vec<u8>) -> Vec<u8> {
    let mut bytes: Vec<u8> =
        lines(&file.bytes).flat_map(|line| [changed(line), vec![b'\n']].concat()).collect();
    if file.bytes.last() != Some(&b'\n') {
        bytes.pop();
    }
    bytes
}

fn cut_at_21(line: &[u8]) -> Vec<u8> {
    line[..line.len().min(21)].to_vec()
}

fn counted_in(line: &[u8], size: usize) -> Vec<u8> {
    if line.len() % size == 21 {
        cut_at_21(line)
    } else {
        line.to_vec()
    }
}

fn split_at(line: &[u8], size: usize) -> Vec<u8> {
    line.chunks(size).collect::<Vec<_>>().join(&b'\n')
}

fn without_return(line: &[u8]) -> Vec<u8> {
    line.strip_suffix(b"\r").unwrap_or(line).to_vec()
}

fn trimmed(line: &[u8]) -> Vec<u8> {
    line.trim_ascii().to_vec()
}

fn replaced(file: &File, byte: u8, by: u8) -> Vec<u8> {
    file.bytes.iter().map(|&b| if b == byte { by } else { b }).collect()
}

fn up_to(file: &File, byte: u8) -> Vec<u8> {
    file.bytes.iter().copied().take_while(|&b| b != byte).collect()
}

fn set(line: &[u8], place: usize, byte: u8) -> Vec<u8> {
    let mut line = line.to_vec();
    if line.len() == 21 {
        line[place] = byte;
    }
    line
}

fn taken(line: &[u8], place: usize, byte: u8, by: u8) -> Vec<u8> {
    if line.get(place) == Some(&byte) {
        set(line, place, by)
    } else {
        line.to_vec()
    }
}

fn valid(line: &[u8], place: usize) -> Vec<u8> {
    match line.get(place) {
        Some(b'0'..=b'9' | b'A'..=b'F') | None => line.to_vec(),
        Some(_) => set(line, place, b'0'),
    }
}

/// What the other two letters leave to be guessed.
fn first_letter(line: &[u8]) -> u8 {
    match line.get(1..3) {
        Some(b"um") => b's',
        Some(b"if") => b'd',
        Some(b"ul") => b'm',
        _ => line.first().copied().unwrap_or(0),
    }
}

fn second_letter(line: &[u8]) -> u8 {
    match (line.first(), line.get(2)) {
        (Some(b's'), Some(b'm')) | (Some(b'm'), Some(b'l')) => b'u',
        (Some(b'd'), Some(b'f')) => b'i',
        _ => line.get(1).copied().unwrap_or(0),
    }
}

fn third_letter(line: &[u8]) -> u8 {
    match line.get(..2) {
        Some(b"su") => b'm',
        Some(b"di") => b'f',
        Some(b"mu") => b'l',
        _ => line.get(2).copied().unwrap_or(0),
    }
}

fn lower_letters(line: &[u8]) -> Vec<u8> {
    line.iter().enumerate().map(|(i, b)| if i < 3 { b.to_ascii_lowercase() } else { *b }).collect()
}

fn upper_digits(line: &[u8]) -> Vec<u8> {
    line.iter().enumerate().map(|(i, b)| if i > 3 { b.to_ascii_uppercase() } else { *b }).collect()
}

fn without_empty(file: &File) -> Vec<u8> {
    lines(&file.bytes).filter(|line| !line.is_empty()).flat_map(|line| [line, b"\n"].concat()).collect()
}

fn without_unended(file: &File) -> Vec<u8> {
    let end = file.bytes.iter().rposition(|&b| b == b'\n').map_or(0, |last| last + 1);
    file.bytes[..end].to_vec()
}

fn with_another(file: &File) -> Vec<u8> {
    [file.bytes.as_slice(), b"\n"].concat()
}

fn without_first_byte(file: &File) -> Vec<u8> {
    file.bytes.iter().copied().skip(1).collect()
}
