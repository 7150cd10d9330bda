//! What is wrong with a text that the refiner refuses.
//!
//! The refiner says a refusal's number and line. People want to know which field, which value, and
//! what is allowed. This module reads the texts once more, by document 01 and on its own, and finds
//! the words for it. The refiner's answer is the truth: each [`Reason`] carries the refusal that it
//! belongs to, and [`job_line`] and [`placement_line`] stay silent where that is not the one that was
//! given. How a placement breaks a rule the refiner says itself, in a [`sentence`](crate::sentence()).

mod echo;
mod field;
mod form;
mod job;
mod line;
mod number;
mod placement;
mod reason;

pub use echo::printable;
pub use reason::Reason;

pub(crate) use form::count;
pub(crate) use job::{read as read_job, read_header, Cell, Edge, Header, Job, Layout};
pub(crate) use job::{MOST_DISPLACEMENT, MOST_REORDERING, MOST_SITES};
pub(crate) use placement::read as read_placement;
pub use placement::RawPose;

use crate::Refused;

/// Why Read refuses a job text; none if it does not.
pub fn job_reason(job: &[u8]) -> Option<Reason> {
    job::read(job).err()
}

/// Why Score refuses a job text and a placement text; none if it does not.
pub fn placement_reason(job: &[u8], placement: &[u8]) -> Option<Reason> {
    match job::read(job) {
        Ok(job) => placement::read(placement, job.cells.len()).err(),
        Err(reason) => Some(reason),
    }
}

/// What is wrong with the line of a job text that was refused so.
pub fn job_line(job: &[u8], refused: &Refused) -> Option<String> {
    job_reason(job)?.words_for(refused)
}

/// What is wrong with the line of a job text or of a placement text that Score refused so.
pub fn placement_line(job: &[u8], placement: &[u8], refused: &Refused) -> Option<String> {
    placement_reason(job, placement)?.words_for(refused)
}
