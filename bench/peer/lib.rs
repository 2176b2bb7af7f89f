//! The rules of plans, runs and searches in plain Rust, as a yardstick of speed. Nothing is shared with the crates.

pub mod lists;
pub mod meetings;
pub mod plan;
pub mod run;
pub mod search;
pub mod timetable;
