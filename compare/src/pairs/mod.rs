//! The pairs: what they are, what answers for them, what they are asked, and how they are compared and timed.
pub mod algorithms;
pub mod bench;
pub mod cases;
pub mod compare;
pub mod edges;
pub mod model;
pub mod number;
pub mod pair;
pub mod planted;
pub mod questions;
pub mod subject;

mod below_power;
mod tiny;

pub use pair::OPERATIONS;
