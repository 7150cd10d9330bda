//! Jobs, damaged texts and placements, the same on every machine for the same seed.

pub mod broken;
pub mod damage;
pub mod jobs;
pub mod legal;
pub mod placements;
mod random;
pub mod small;
pub mod staples;

pub use random::Random;
