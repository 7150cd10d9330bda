//! A second refiner, and what is needed to hold the first against it.
//!
//! [`plain`] is written in plain Rust from the scope document and the change requests alone and
//! shares nothing with the refiner under trial. [`generate`] makes jobs, damaged texts and
//! placements from a fixed seed. [`lent`] and [`lender`] check what a call leaves in lent buffers.
//! The tests stand in `tests/`, the benchmark in `src/bin/bench`.

pub mod generate;
pub mod lender;
pub mod lent;
pub mod plain;
