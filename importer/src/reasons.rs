//! Reasons, with its answer as a struct.

use crate::fields::Fields;
use crate::{calls, Refused};

/// How many bytes of output Reasons needs, whatever the sentence's length.
pub const REASONS_BYTES: usize = 1024;

/// What Reasons answers of a job and a placement.
#[derive(Clone, Copy, Debug, PartialEq, Eq)]
pub struct Reasons {
    /// How many bytes of the output are the sentence.
    pub text_length: usize,
}

/// Writes to the start of a lent output the sentence that names every cell which breaks the first
/// broken rule, or `legal.`
pub fn reasons(job: &[u8], placement: &[u8], output: &mut [u8]) -> Result<Reasons, Refused> {
    let call = |results: &mut [i32]| calls::reasons(job, placement, output, results);
    let mut fields = Fields::of(1, call)?;
    Ok(Reasons {
        text_length: fields.length(),
    })
}

/// The sentence on a placement, without a line feed: the phrase of the first broken rule and every
/// cell that breaks it, or `legal.` Its first cell is the one that [`score`](crate::score) names.
///
/// ```
/// use importer::{sentence, Sentence};
///
/// # fn main() -> Result<(), Box<dyn std::error::Error>> {
/// let job = b"J,1,20,1,1,100,1,100,50\nC,0,2,1,1,4,3,3,2,2\nC,0,6,0,1,4,3,3,2,2\n";
/// // The first cell takes sites 3 to 6, the second 6 to 9.
/// let said = sentence(job, b"3,0,0\n6,0,0\n")?;
/// assert_eq!(said, "overlap: cell 1, cell 2.");
/// let cells = vec![1, 2];
/// assert_eq!(said.parse(), Ok(Sentence::Broken { rule: 4, cells }));
/// assert_eq!(sentence(job, b"2,0,0\n6,0,0\n")?, "legal.");
/// # Ok(())
/// # }
/// ```
pub fn sentence(job: &[u8], placement: &[u8]) -> Result<String, Refused> {
    let mut output = [0; REASONS_BYTES];
    let Reasons { text_length } = reasons(job, placement, &mut output)?;
    Ok(String::from_utf8_lossy(&output[..text_length]).into_owned())
}
