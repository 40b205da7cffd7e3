//! Lists of 32,768 lines, and of a few less or more.
use super::{drawn, ended, File};
use crate::random::Random;
use crate::sheets::line::Asked;
use crate::sheets::model::MOST;

pub const CONSTRUCTED: u64 = 15;

pub fn constructed(number: u64, r: &mut Random) -> File {
    let newlines = |count: usize| vec![b'\n'; count];
    match number {
        // A finite total, which shows every one of its 65,536 terms.
        0 => of_questions(MOST, drawn::near, r),
        1 => of_questions(MOST + 1, drawn::question, r),
        2 => of_questions(MOST, largest, r).unended(),
        3 => of_questions(MOST + 1, smallest, r).unended(),
        4 => mixed(MOST - 1, r),
        5 => mixed(MOST + 1000, r),
        6 => File::new("32,768 newlines", newlines(MOST)),
        7 => File::new("32,767 newlines", newlines(MOST - 1)),
        8 => File::new("32,769 newlines", newlines(MOST + 1)),
        9 => File::new("300,000 newlines", newlines(300_000)),
        10 => File::new("32,768 newlines and a byte", [newlines(MOST), vec![b's']].concat()),
        11 => File::new("32,768 newlines and a byte 0", [newlines(MOST), vec![0]].concat()),
        12 => File::new("32,767 newlines and a byte", [newlines(MOST - 1), vec![b's']].concat()),
        13 => of_questions(MOST, drawn::any_patterns, r),
        _ => File::new("32,768 newlines and a long line", [newlines(MOST), vec![b'0'; 200_000]].concat()),
    }
}

fn of_questions(count: usize, question: fn(&mut Random) -> Asked, r: &mut Random) -> File {
    let questions: Vec<Asked> = (0..count).map(|_| question(r)).collect();
    File::of_questions(format!("{count} questions"), &questions)
}

/// Every term is among the largest, of one sign.
fn largest(r: &mut Random) -> Asked {
    let asked = drawn::any_patterns(r);
    let high = |x: u32| x & 0x007F_FFFF | 0x7E80_0000;
    Asked { x: high(asked.x), y: high(asked.y), ..asked }
}

/// Every term is among the smallest, of any sign.
fn smallest(r: &mut Random) -> Asked {
    let asked = drawn::any_patterns(r);
    let low = |x: u32| x & 0x807F_FFFF;
    Asked { x: low(asked.x), y: low(asked.y), ..asked }
}

/// Most lines are bad: they cost little.
fn mixed(count: usize, r: &mut Random) -> File {
    let line = |r: &mut Random| match r.within(0, 19) {
        0 => ended(drawn::question(r).shown()),
        1 => ended(*b"sum\t3f800001\t33800000"),
        2 => ended(*b"sum 3F800001 33800000"),
        3 => ended(*b"SUM\t3F800001\t33800000"),
        4 => ended(*b"sum\t3F800001\t33800000\r"),
        _ => ended(*b""),
    };
    File::new(format!("{count} lines, few of them good"), (0..count).flat_map(|_| line(r)).collect())
}
