//! Exact totals: what calls they take, what answers for them, and how they are compared and timed.
pub mod bench;
pub mod call;
pub mod cases;
pub mod columns;
pub mod compare;
pub mod model;
pub mod number;
pub mod plain;
pub mod planted;
pub mod stored;
pub mod subject;
