//! Marking a candidate's own lines: what is handed in, what marks it, and how that is compared and timed.
pub mod bench;
pub mod check;

mod cases;
mod compare;
mod model;
mod peer;
mod planted;
mod subject;
mod way;
mod worksheet;
mod worksheets;
