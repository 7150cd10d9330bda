//! The refiner in plain Rust.

pub mod brute;
pub mod cells;
pub mod cost;
pub mod fault;
mod gap;
pub mod job;
pub mod load;
pub mod local;
mod numbers;
mod order;
pub mod placement;
pub mod reader;
pub mod reasons;
pub mod results;
pub mod rules;
pub mod scorer;
pub mod search;
pub mod staples;
pub mod staples_brute;
mod staples_search;

/// A refusal: its number, and its line or 0.
#[derive(Clone, Copy, Debug, PartialEq, Eq)]
pub struct Refused {
    pub number: u32,
    pub line: u32,
}
