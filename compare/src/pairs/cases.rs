//! The cases that the specification lists, and some with NaN operands, which both references have to give before they count
//! as such.
use super::pair::{Flags, Operation, Pair};
use super::{algorithms, model};
use crate::pattern::SIGN;
use crate::processor::Processor;
use std::hint::black_box;

/// The first case that a reference does not give.
pub fn distrusted(processor: Processor) -> Option<String> {
    // A difference is the sum with y's sign turned: every case of a sum is one of a difference.
    let turned = CASES
        .iter()
        .filter(|case| case.0 == Operation::Sum)
        .map(|&(_, x, y, right)| (Operation::Difference, x, y ^ SIGN, right));
    CASES.iter().copied().chain(turned).find_map(|(operation, x, y, right)| {
        let (operation, x, y) = black_box((operation, x, y));
        let (by_model, by_algorithm) =
            (model::pair(operation, x, y), algorithms::answer(processor, operation, x, y));
        let asked = format!("{} {x:08X} {y:08X}", operation.name());
        if by_model != right {
            Some(format!("the model, {asked}: {}, not {}", by_model.shown(" "), right.shown(" ")))
        } else if by_algorithm != right.patterns() {
            let (first, second) = by_algorithm;
            Some(format!("the algorithms, {asked}: {first:08X} {second:08X}, not {}", right.shown(" ")))
        } else {
            None
        }
    })
}

type Case = (Operation, u32, u32, Pair);

const fn case(operation: Operation, x: u32, y: u32, first: u32, second: u32, flags: Flags) -> Case {
    (operation, x, y, Pair { first, second, flags })
}

const CASES: [Case; 17] = [
    case(Operation::Sum, 0x3F80_0000, 0x3380_0000, 0x3F80_0000, 0x3380_0000, Flags::NONE),
    case(Operation::Sum, 0x7F7F_FFFF, 0x7300_0000, 0x7F7F_FFFF, 0x7300_0000, Flags::NONE),
    case(Operation::Sum, 0x7F7F_FFFF, 0x7300_0001, 0x7F80_0000, 0x7F80_0000, Flags::OX),
    case(Operation::Sum, 0x8000_0000, 0x8000_0000, 0x8000_0000, 0x8000_0000, Flags::NONE),
    case(Operation::Sum, 0xBF80_0000, 0x3F80_0000, 0x0000_0000, 0x0000_0000, Flags::NONE),
    case(Operation::Sum, 0x7F80_0000, 0xFF80_0000, 0x7FC0_0000, 0x7FC0_0000, Flags::I),
    case(Operation::Product, 0x41F8_0000, 0x7D04_2108, 0x7F7F_FFFF, 0x7300_0000, Flags::NONE),
    case(Operation::Product, 0x0000_0003, 0x3F00_0000, 0x0000_0001, 0x0000_0000, Flags::UX),
    case(Operation::Product, 0x8000_0001, 0x3F00_0000, 0x8000_0000, 0x8000_0000, Flags::UX),
    case(Operation::Product, 0x3F80_0001, 0x0080_0001, 0x0080_0002, 0x0000_0000, Flags::UX),
    case(Operation::Product, 0x3F80_0001, 0x3F80_0001, 0x3F80_0002, 0x2880_0000, Flags::NONE),
    // NaN operands: the first keeps its sign and payload and is quiet. A signalling one raises I, kept or not.
    case(Operation::Sum, 0x7FC0_0001, 0x0000_0000, 0x7FC0_0001, 0x7FC0_0001, Flags::NONE),
    case(Operation::Sum, 0x7F80_0000, 0xFF81_2345, 0xFFC1_2345, 0xFFC1_2345, Flags::I),
    case(Operation::Sum, 0xFFC0_0001, 0x7F80_0002, 0xFFC0_0001, 0xFFC0_0001, Flags::I),
    case(Operation::Product, 0x0000_0000, 0xFFC0_0001, 0xFFC0_0001, 0xFFC0_0001, Flags::NONE),
    case(Operation::Product, 0xFF80_0001, 0x7FC0_0002, 0xFFC0_0001, 0xFFC0_0001, Flags::I),
    case(Operation::Product, 0x8000_0000, 0x7F80_0000, 0x7FC0_0000, 0x7FC0_0000, Flags::I),
];
