//! Holds two engines against each other on random tables and names: answers
//! and every word of both buffers.

pub mod again;
pub mod engine;
pub mod harness;
pub mod lists;
pub mod older;
pub mod plain_engine;
pub mod screens;
pub mod tally;
pub mod tiny;

pub use again::{check_again, check_joining};
pub use engine::Engine;
pub use harness::{compare, compare_all, compare_over, say, Counts, Report, Settings};
pub use lists::check_lists;
pub use older::check_older;
pub use plain_engine::{Indexed, Passed, Plain, Slow};
pub use tally::Tally;
pub use tiny::check_tiny;
