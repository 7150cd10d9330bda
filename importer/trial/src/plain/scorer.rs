//! Scoring a placement text by a job text.

use super::cost::{numbers, Numbers};
use super::job::Job;
use super::placement::{read_placement, Pose};
use super::reader::read_job;
use super::rules::{legal_rows, Broken};
use super::Refused;

const PLACEMENT: u32 = 5;

/// The numbers of a legal placement, or what it breaks.
pub type Verdict = Result<Numbers, Broken>;

pub fn verdict(job: &Job, placement: &[Pose]) -> Verdict {
    let rows = legal_rows(job, placement)?;
    Ok(numbers(job, placement, &rows))
}

pub fn score(job: &[u8], placement: &[u8]) -> Result<Verdict, Refused> {
    let job = read_job(job)?;
    let refuse = |line| Refused {
        number: PLACEMENT,
        line,
    };
    let placement = read_placement(placement, job.cells.len()).map_err(refuse)?;
    Ok(verdict(&job, &placement))
}
