//! Filled sheets and lists of questions: what is asked, what answers, and what R7 claims of a whole list.
pub mod check;
pub mod model;

mod book;
mod events;
mod fills;
mod planted;
mod replays;
mod subject;
mod trial;
mod zeros;
