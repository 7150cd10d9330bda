//! The desk's daily tools: what `refine gaps` and `refine compare` tell of a placement, and `refine
//! whatif` of a job.
//!
//! What a placement costs and whether it is legal is the refiner's word. This module only shows
//! where cells stand, as [`crate::explain`] reads the texts.

mod altered;
mod compare;
mod fillers;
mod gaps;
mod steps;
mod table;
mod whatif;

pub use crate::explain::RawPose;
pub use compare::{Change, Comparison, StepChanges};
pub use fillers::Fillers;
pub use gaps::{gaps, Gap, RowGaps, Tally, Untold, WIDTHS};
pub(crate) use gaps::{is_charged, FORBIDDEN};
pub(crate) use steps::steps_between;
pub use steps::{steps, Diffusion, Step};
pub use table::Table;
pub use whatif::{whatif, Ways, WhatIf, DISPLACEMENTS, REORDERINGS};
