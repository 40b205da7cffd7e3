//! The program `sheet`: a model of all that it prints, files to ask it, and how it is compared and timed.
pub mod bench;
pub mod check;
pub mod files;
pub mod impostor;
pub mod line;
pub mod model;
pub mod peer;
pub mod sheet;
pub mod steps;

mod cases;
mod compare;
mod endings;
mod failures;
mod path;
mod planted;
mod program;
mod usage;
