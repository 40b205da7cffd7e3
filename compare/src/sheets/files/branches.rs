//! A question for every way through the rules of a sheet.
use super::drawn;
use super::File;
use crate::pairs::pair::Operation::{self, Difference, Product, Sum};
use crate::random::Random;
use crate::sheets::line::Asked;
use crate::sheets::path::Path;
use crate::sheets::sheet::sheet;

/// Every question of the table, in its order.
pub fn every() -> File {
    File::of_questions("a question for every way through the rules", &questions())
}

pub fn questions() -> Vec<Asked> {
    QUESTIONS.iter().map(|&(operation, x, y)| Asked::new(operation, x, y)).collect()
}

/// Some of the table's, with others between them.
pub fn drawn(r: &mut Random) -> File {
    let lines = r.within(1, 200);
    let one = |r: &mut Random| {
        let (operation, x, y) = QUESTIONS[r.within(0, QUESTIONS.len() as i32 - 1) as usize];
        if r.once_in(4) {
            drawn::question(r)
        } else {
            Asked::new(operation, x, y)
        }
    };
    let questions: Vec<Asked> = (0..lines).map(|_| one(r)).collect();
    File::of_questions(format!("{lines} questions, most of them of the table of branches"), &questions)
}

/// The way that a question takes; sums and differences have their own.
pub type Way = (&'static str, Path);

pub fn way(asked: Asked) -> Way {
    (asked.operation.name(), sheet(asked.operation, asked.x, asked.y).path)
}

/// The ways that the table has.
pub fn ways() -> Vec<Way> {
    let mut ways: Vec<Way> = questions().into_iter().map(way).collect();
    ways.sort_unstable();
    ways.dedup();
    ways
}

/// A question whose way the table has not, among so many random ones.
pub fn missing(seed: u64, count: u64) -> Option<Asked> {
    let known = ways();
    let mut r = Random::stream(seed, &[510]);
    (0..count).map(|_| drawn::question(&mut r)).find(|&asked| known.binary_search(&way(asked)).is_err())
}

const QUESTIONS: [(Operation, u32, u32); 164] = [
    (Sum, 0x3F80_0001, 0x3380_0000),
    (Sum, 0x3300_0000, 0x3F80_0000),
    (Sum, 0xBF80_0000, 0x3F80_0000),
    (Sum, 0x7F80_0001, 0x3F80_0000),
    (Sum, 0x3F80_0000, 0xFF80_0000),
    (Sum, 0x7300_0001, 0x7F7F_FFFF),
    (Sum, 0x7F00_0001, 0x7EFF_FFFF),
    (Difference, 0x3F80_0000, 0xC040_0000),
    (Difference, 0x3F80_0000, 0xFF80_0001),
    (Difference, 0xFF7F_FFFF, 0x7300_0000),
    (Product, 0x41F8_0000, 0x7D04_2108),
    (Product, 0x7F7F_FFFF, 0xC000_0000),
    (Product, 0x8000_0001, 0x3F00_0000),
    (Product, 0x0000_0003, 0xBF00_0000),
    (Product, 0x3F7F_FFFF, 0x0000_0001),
    (Product, 0x1EF8_0000, 0x2184_2108),
    (Product, 0x0080_0002, 0x4A7F_FFFF),
    (Product, 0x0000_0003, 0x4B7F_FFFF),
    (Product, 0x3F80_0001, 0x3F80_0001),
    (Product, 0x3FC0_0000, 0xC000_0000),
    (Product, 0x0000_0000, 0x7F80_0000),
    (Product, 0x2600_0000, 0x2600_0000),
    (Product, 0x0C80_0001, 0x3F80_0000),
    (Sum, 0x3F80_0000, 0x3300_0000),
    (Sum, 0x3380_0000, 0x3F80_0001),
    (Sum, 0x3F80_0000, 0x4000_0000),
    (Sum, 0x4000_0000, 0x3F80_0000),
    (Sum, 0x3F80_0000, 0x3F80_0000),
    (Sum, 0x0000_0000, 0x0000_0000),
    (Sum, 0x0000_0000, 0x8000_0000),
    (Sum, 0x8000_0000, 0x0000_0000),
    (Sum, 0x8000_0000, 0x8000_0000),
    (Sum, 0x0000_0001, 0x8000_0001),
    (Sum, 0x0000_0001, 0x0000_0002),
    (Sum, 0x807F_FFFF, 0x8000_0001),
    (Sum, 0x3F80_0000, 0x0000_0000),
    (Sum, 0x8000_0000, 0x3F80_0000),
    (Sum, 0xBF80_0001, 0xB380_0000),
    (Sum, 0x3F80_0000, 0xB300_0000),
    (Sum, 0x3F80_0000, 0xB280_0000),
    (Sum, 0x7FC0_0000, 0x3F80_0000),
    (Sum, 0x3F80_0000, 0xFFC0_0001),
    (Sum, 0x3F80_0000, 0x7F80_0001),
    (Sum, 0xFFBF_FFFF, 0x7FC0_0000),
    (Sum, 0x7F80_0000, 0xFF80_0000),
    (Sum, 0xFF80_0000, 0x7F80_0000),
    (Sum, 0x7F80_0000, 0x7FC0_0000),
    (Sum, 0x7F80_0000, 0x3F80_0000),
    (Sum, 0x7F80_0000, 0x7F80_0000),
    (Sum, 0xFF80_0000, 0xFF80_0000),
    (Sum, 0x3F80_0000, 0x7F80_0000),
    (Sum, 0x7F80_0000, 0x7F7F_FFFF),
    (Sum, 0x8000_0000, 0xFF80_0000),
    (Sum, 0x7F7F_FFFF, 0x7F7F_FFFF),
    (Sum, 0xFF7F_FFFF, 0xFF7F_FFFF),
    (Sum, 0x7F7F_FFFF, 0x7300_0001),
    (Sum, 0x7F7F_FFFF, 0x7300_0000),
    (Sum, 0x7300_0000, 0x7F7F_FFFF),
    (Sum, 0xFF7F_FFFF, 0xF300_0000),
    (Sum, 0xF300_0000, 0xFF7F_FFFF),
    (Sum, 0x7F7F_FFFF, 0x72FF_FFFF),
    (Sum, 0xFF00_0001, 0xFEFF_FFFF),
    (Sum, 0x7EFF_FFFF, 0x7F00_0001),
    (Sum, 0x7F00_0000, 0x7F00_0000),
    (Difference, 0x7F7F_FFFF, 0xF300_0000),
    (Difference, 0x7300_0000, 0xFF7F_FFFF),
    (Difference, 0x3F80_0000, 0x3F80_0000),
    (Difference, 0x8000_0000, 0x0000_0000),
    (Difference, 0x0000_0000, 0x8000_0000),
    (Difference, 0x0000_0000, 0x0000_0000),
    (Difference, 0x7F80_0000, 0x7F80_0000),
    (Difference, 0x7F80_0000, 0xFF80_0000),
    (Difference, 0x3F80_0000, 0x7F80_0000),
    (Difference, 0xFF7F_FFFF, 0x7F7F_FFFF),
    (Difference, 0x3F80_0001, 0xB380_0000),
    (Difference, 0x3380_0000, 0xBF80_0001),
    (Difference, 0x7FC0_0000, 0x3F80_0000),
    (Difference, 0x3F80_0000, 0x7FC0_0000),
    (Difference, 0xFF80_0001, 0x7FC0_0000),
    (Difference, 0x7300_0001, 0xFF7F_FFFF),
    (Product, 0x7F80_0000, 0x3F80_0000),
    (Product, 0xFF80_0000, 0x3F80_0000),
    (Product, 0x3F80_0000, 0xFF80_0000),
    (Product, 0x7F80_0000, 0x7F80_0000),
    (Product, 0x0000_0001, 0x7F80_0000),
    (Product, 0x8000_0001, 0x7F80_0000),
    (Product, 0x7F80_0000, 0x0000_0001),
    (Product, 0x7F7F_FFFF, 0x7F7F_FFFF),
    (Product, 0xFF7F_FFFF, 0x4000_0000),
    (Product, 0x7D04_2108, 0x41F8_0000),
    (Product, 0xC1F8_0000, 0x7D04_2108),
    (Product, 0x41F8_0000, 0xFD04_2108),
    (Product, 0x41F8_0001, 0x7D04_2108),
    (Product, 0x41F8_0000, 0x7D04_2109),
    (Product, 0x41F8_0000, 0x7D04_2107),
    (Product, 0x7F7F_FFFF, 0x3F80_0000),
    (Product, 0x7F7F_FFFF, 0x3F80_0001),
    (Product, 0x0000_0000, 0x0000_0000),
    (Product, 0x8000_0000, 0x3F80_0000),
    (Product, 0x3F80_0000, 0x8000_0000),
    (Product, 0x8000_0000, 0x8000_0000),
    (Product, 0x0000_0001, 0x0000_0001),
    (Product, 0x8000_0001, 0x0000_0001),
    (Product, 0x0000_0001, 0x3F00_0000),
    (Product, 0x0000_0001, 0x3F00_0001),
    (Product, 0x0000_0003, 0x3F00_0000),
    (Product, 0x8000_0003, 0x3F00_0000),
    (Product, 0x8000_0003, 0xBF00_0000),
    (Product, 0x0000_0005, 0x3F00_0000),
    (Product, 0x0000_0001, 0x3F80_0000),
    (Product, 0x0080_0000, 0x3F00_0000),
    (Product, 0x0080_0000, 0x3F7F_FFFF),
    (Product, 0x00FF_FFFF, 0x3F00_0000),
    (Product, 0x3F80_0001, 0x0080_0001),
    (Product, 0x007F_FFFF, 0x3F80_0001),
    (Product, 0x00FF_FFFF, 0x3F7F_FFFF),
    (Product, 0x1A00_0000, 0x1A00_0000),
    (Product, 0x0100_0000, 0x3F80_0000),
    (Product, 0x0080_0000, 0x4000_0000),
    (Product, 0x8100_0000, 0x3F80_0000),
    (Product, 0x00FF_FFFF, 0x3F80_0000),
    (Product, 0x0100_0001, 0x3F80_0001),
    (Product, 0x0C80_0000, 0x3F80_0000),
    (Product, 0x0C7F_FFFF, 0x3F80_0000),
    (Product, 0x0C80_0000, 0xBF80_0000),
    (Product, 0x0C80_0000, 0x3F80_0001),
    (Product, 0x0C7F_FFFF, 0x3F80_0001),
    (Product, 0x9EF8_0000, 0x2184_2108),
    (Product, 0x1EF8_0000, 0xA184_2108),
    (Product, 0x8080_0002, 0x4A7F_FFFF),
    (Product, 0x0000_0003, 0xCB7F_FFFF),
    (Product, 0x0000_0003, 0x4A7F_FFFF),
    (Product, 0x0680_0001, 0x4000_0001),
    (Product, 0x0680_0003, 0x3FC0_0000),
    (Product, 0x0380_0001, 0x3F80_0001),
    (Product, 0x0380_0003, 0xBF80_0001),
    (Product, 0xBF80_0001, 0x3F80_0001),
    (Product, 0x3F80_0001, 0xBF80_0001),
    (Product, 0xBFC0_0000, 0xC000_0000),
    (Product, 0x3F80_0003, 0x3FC0_0000),
    (Product, 0x3F80_0001, 0x3FC0_0000),
    (Product, 0x3FFF_FFFF, 0x3FFF_FFFF),
    (Product, 0x4049_0FDB, 0x402D_F854),
    (Product, 0x7FC0_0000, 0x3F80_0000),
    (Product, 0x3F80_0000, 0xFFC0_0001),
    (Product, 0x7F80_0001, 0x3F80_0000),
    (Product, 0x3F80_0000, 0xFFBF_FFFF),
    (Product, 0x0000_0000, 0xFF80_0000),
    (Product, 0x7F80_0000, 0x8000_0000),
    (Product, 0x7FC0_0000, 0x0000_0000),
    (Product, 0x7FC0_0000, 0x7F80_0001),
    (Difference, 0x3F80_0000, 0xB300_0000),
    (Difference, 0x3300_0000, 0xBF80_0000),
    (Product, 0x0196_4000, 0x485A_1700),
    (Sum, 0x7FC0_0001, 0x0000_0000),
    (Sum, 0x0000_0000, 0xFFC1_2345),
    (Sum, 0x7F81_2345, 0xFFC0_0001),
    (Difference, 0x3F80_0000, 0x7F81_2345),
    (Difference, 0xFFC1_2345, 0x7FC0_0001),
    (Difference, 0x7F80_0000, 0xFFFF_FFFF),
    (Product, 0xFFC1_2345, 0x7F80_0001),
    (Product, 0x0000_0000, 0x7FC1_2345),
    (Product, 0xFF80_0000, 0x7FBF_FFFF),
    (Product, 0x8000_0001, 0xFF80_0000),
];
