//! The row pair refiner for Rust programs.
//!
//! The refiner itself is written in Rattle, proved, and linked as the archive `librefiner.a`
//! (`include/refiner.h` is its C interface). This library makes its functions safe to call:
//! [`calls`] has each of them with slices for addresses and lengths, and the modules beside it
//! turn the numbers that a call leaves behind into plain structs. [`REFUSALS`] and [`RULES`] say in
//! words what refusal numbers and rules mean, [`explain`] what is wrong with a text, and
//! [`sentence`](sentence()) which cells break a rule. [`desk`] has what the desk's tools tell,
//! [`draw`] shows rows as a picture, and [`batch`] does many jobs; [`farm_job`] writes a job of the
//! farm's load.
//!
//! Texts go in and out as bytes; [`job`] and [`placement`] have them as values:
//!
//! ```
//! use importer::job::{Cell, Header, Job, Layout, Weights};
//! use importer::{score, Pose, Refiner};
//!
//! # fn main() -> Result<(), Box<dyn std::error::Error>> {
//! let weights = Weights { step: 100, shift: 1, mirror: 100, swap: 50, filled: None };
//! let header = Header { rows: 1, sites: 20, displacement: 1, reordering: 1, weights };
//! let inverter = [Layout::single(4, [3, 3, 2, 2])];
//! let job = Job::new(header)
//!     .with(Cell::single(0, 2, inverter).mirrorable())
//!     .with(Cell::single(0, 6, inverter))
//!     .text();
//!
//! let mut refiner = Refiner::new();
//! let answer = refiner.place(&job)?;
//! assert_eq!(answer.numbers().cost, 100);
//! assert_eq!(answer.poses()?[0], Pose { site: 2, layout: 0, mirrored: true });
//! assert_eq!(score(&job, answer.text())?.legal()?, answer.numbers());
//! # Ok(())
//! # }
//! ```
//!
//! What is proved is what the archive's functions answer; this library and the texts that [`job`]
//! and [`placement`] write are tested. Checking and documenting a program needs no archive, only
//! linking it does: `rt lib` in the folder `crates/refiner` writes it, and
//! `REFINER_LIB_DIR` names its folder if it stands elsewhere.

#![deny(missing_docs)]

pub mod batch;
mod board;
pub mod calls;
pub mod desk;
pub mod draw;
pub mod explain;
mod fault;
mod fields;
pub mod job;
mod kind;
mod loading;
mod numbers;
pub mod placement;
mod placing;
mod reading;
mod reasons;
mod refiner;
mod refused;
mod rules;
mod scoring;
mod sentence;

pub use fault::{copied_fault_line, fault_line};
pub use kind::RefusalKind;
pub use loading::{farm_job, load, Loaded, LOAD_BYTES};
pub use numbers::{has_filled_steps, Numbers};
pub use placement::{Pose, PoseError};
pub use placing::{place, refine, store_words, Placed, Refined};
pub use placing::{OUTPUT_BYTES, STORE_WORDS, STORE_WORDS_BY_TWO};
pub use reading::{read, Read};
pub use reasons::{reasons, sentence, Reasons, REASONS_BYTES};
pub use refiner::{Answer, Refiner};
pub use refused::{Refusal, Refused, REFUSALS};
pub use rules::{Broken, Rule, RULES};
pub use scoring::{score, Verdict};
pub use sentence::{Sentence, SentenceError};
