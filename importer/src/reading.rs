//! Read, with its answer as a struct.

use crate::fields::Fields;
use crate::{calls, Refused};

/// What Read answers of a job that it accepts.
#[derive(Clone, Copy, Debug, PartialEq, Eq)]
pub struct Read {
    /// How many cells the job has.
    pub cells: u32,
}

/// Reads a job text.
///
/// ```
/// let job = b"J,1,20,1,1,100,1,100,50\nC,0,2,1,1,4,3,3,2,2\nC,0,6,0,1,4,3,3,2,2\n";
/// assert_eq!(importer::read(job)?.cells, 2);
/// # Ok::<(), importer::Refused>(())
/// ```
pub fn read(job: &[u8]) -> Result<Read, Refused> {
    let mut fields = Fields::of(1, |results| calls::read(job, results))?;
    Ok(Read {
        cells: fields.natural(),
    })
}
