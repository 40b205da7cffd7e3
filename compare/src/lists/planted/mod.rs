//! The comparison of filling and of lists tried on itself: planted faults have to be found out.
mod filling;
mod listing;

use super::{fills, trial};

const SHEETS: u64 = 8192;
const LISTS: u64 = 64;

/// Runs the comparison on each fault, by its shape. Says which it found, or the first that it missed.
pub fn tried(seed: u64) -> Result<String, String> {
    let mut found = Vec::new();
    for (fault, shape, name) in filling::FAULTS {
        if fills::compare(&filling::Planted(fault), shape, seed, SHEETS).differences.is_empty() {
            return Err(format!("fill {} ({name})", shape.name()));
        }
        found.push(format!("{name} ({})", shape.name()));
    }
    for (fault, source, name) in listing::FAULTS {
        if trial::compare(&listing::Planted(fault), source, seed, LISTS).differences.is_empty() {
            return Err(format!("list {} ({name})", source.name()));
        }
        found.push(format!("{name} ({})", source.name()));
    }
    Ok(found.join(", "))
}
