//! Reading a question line by a table of digits.

pub const LENGTH: usize = 21;

#[derive(Clone, Copy, PartialEq, Eq)]
pub enum Kind {
    Sum,
    Dif,
    Mul,
}

pub struct Question<'a> {
    pub kind: Kind,
    pub x: u32,
    pub y: u32,
    /// The line, which `ask` repeats.
    pub line: &'a [u8; LENGTH],
}

/// A digit's value, or 0xFF for a byte that is none.
const DIGITS: [u8; 256] = {
    let mut table = [0xFF; 256];
    let mut value = 0;
    while value < 16 {
        table[b"0123456789ABCDEF"[value as usize] as usize] = value;
        value += 1;
    }
    table
};

#[inline(always)]
pub fn read(line: &[u8; LENGTH]) -> Result<Question<'_>, u32> {
    let kind = match &line[..3] {
        b"sum" => Kind::Sum,
        b"dif" => Kind::Dif,
        b"mul" => Kind::Mul,
        _ => return Err(2),
    };
    if line[3] != b'\t' || line[12] != b'\t' {
        return Err(3);
    }
    let ((x, bad_x), (y, bad_y)) = (pattern(line, 4), pattern(line, 13));
    if bad_x | bad_y {
        return Err(4);
    }
    Ok(Question { kind, x, y, line })
}

#[inline(always)]
fn pattern(line: &[u8; LENGTH], from: usize) -> (u32, bool) {
    let (mut value, mut all) = (0, 0);
    for i in from..from + 8 {
        let digit = DIGITS[line[i] as usize];
        value = value << 4 | u32::from(digit & 15);
        all |= digit;
    }
    (value, all > 15)
}
