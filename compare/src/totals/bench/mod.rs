//! Times adding to totals and joining them.
mod joins;
mod terms;

use crate::bench::SWEEPS;
use crate::random::Random;
use crate::sums::number;
use std::hint::black_box;
use std::process::ExitCode;
use std::time::Instant;

pub fn run(seed: u64) -> ExitCode {
    let of_terms = terms::run(seed);
    println!();
    let of_joins = joins::run(seed);
    if of_terms == ExitCode::SUCCESS {
        of_joins
    } else {
        of_terms
    }
}

/// A number whose exponent lies within 3 of 1's.
fn near_one(r: &mut Random) -> u32 {
    let exponent = r.within(124, 130);
    number(r, exponent)
}

/// Nanoseconds for each of what a sweep goes over.
fn measured<I, T>(all: &[I], sweep: impl Fn(&[I]) -> T) -> f64 {
    let start = Instant::now();
    for _ in 0..SWEEPS {
        black_box(sweep(black_box(all)));
    }
    start.elapsed().as_nanos() as f64 / (SWEEPS * all.len()) as f64
}
