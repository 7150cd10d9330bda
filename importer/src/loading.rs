//! Load, with its answer as a struct.

use crate::fields::Fields;
use crate::{calls, Refused};

/// How many bytes of output Load needs, whatever the job's length.
pub const LOAD_BYTES: usize = 8192;

/// What Load answers of a seed and a count of cells.
#[derive(Clone, Copy, Debug, PartialEq, Eq)]
pub struct Loaded {
    /// How many bytes of the output are the job's text.
    pub text_length: usize,
}

/// Writes the farm's job of a seed and a count of cells to the start of a lent output: the same on
/// each machine. The seed 0 is taken as 1.
pub fn load(seed: u32, cells: u32, output: &mut [u8]) -> Result<Loaded, Refused> {
    let call = |results: &mut [i32]| calls::load(seed, cells, output, results);
    let mut fields = Fields::of(1, call)?;
    Ok(Loaded {
        text_length: fields.length(),
    })
}

/// The text of the farm's job of a seed and a count of cells, which [`read`](crate::read) accepts.
///
/// ```
/// let job = importer::farm_job(7, 2)?;
/// let header = "J,2,1024,7,1,100,1,100,50\n";
/// let cells = "C,1,5,0,2,9,3,2,4,1,13,1,1,2,1\nC,1,10,0,1,12,4,2,3,3\n";
/// assert_eq!(job, [header, cells].concat().as_bytes());
/// # Ok::<(), importer::Refused>(())
/// ```
pub fn farm_job(seed: u32, cells: u32) -> Result<Vec<u8>, Refused> {
    let mut text = vec![0; LOAD_BYTES];
    let loaded = load(seed, cells, &mut text)?;
    text.truncate(loaded.text_length);
    Ok(text)
}
