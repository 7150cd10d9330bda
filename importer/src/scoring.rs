//! Score, with its answer as an enum.

use crate::fields::Fields;
use crate::{calls, Broken, Numbers, Refused};
use std::fmt;

/// Rule and cell, which stand before the numbers.
const BEFORE: usize = 2;

/// What Score says of a placement.
#[derive(Clone, Copy, Debug, PartialEq, Eq)]
pub enum Verdict {
    /// All rules hold; these are its numbers.
    Legal(Numbers),
    /// The first broken rule and its lowest cell.
    Broken(Broken),
}

impl Verdict {
    /// The numbers of a legal placement, or what it breaks.
    ///
    /// ```
    /// # fn main() -> Result<(), Box<dyn std::error::Error>> {
    /// let job = b"J,1,20,1,1,100,1,100,50\nC,0,2,1,1,4,3,3,2,2\n";
    /// let numbers = importer::score(job, b"2,0,1\n")?.legal()?;
    /// assert_eq!(numbers.mirrored, 1);
    /// # Ok(())
    /// # }
    /// ```
    pub fn legal(self) -> Result<Numbers, Broken> {
        match self {
            Verdict::Legal(numbers) => Ok(numbers),
            Verdict::Broken(broken) => Err(broken),
        }
    }
}

/// `legal: ` and the numbers, or which cell breaks which rule.
impl fmt::Display for Verdict {
    fn fmt(&self, out: &mut fmt::Formatter<'_>) -> fmt::Result {
        match self {
            Verdict::Legal(numbers) => write!(out, "legal: {numbers}"),
            Verdict::Broken(broken) => broken.fmt(out),
        }
    }
}

/// Scores a placement text by a job text.
///
/// ```
/// use importer::{score, Broken, Verdict};
///
/// let job = b"J,1,20,1,1,100,1,100,50\nC,0,2,1,1,4,3,3,2,2\nC,0,6,0,1,4,3,3,2,2\n";
/// // The second cell is shifted by one site, and one empty site is left between the two.
/// let verdict = score(job, b"2,0,0\n7,0,0\n")?;
/// assert_eq!(verdict, Verdict::Broken(Broken { rule: 5, cell: 1 }));
/// # Ok::<(), importer::Refused>(())
/// ```
pub fn score(job: &[u8], placement: &[u8]) -> Result<Verdict, Refused> {
    let count = BEFORE + Numbers::count(job);
    let mut fields = Fields::of(count, |results| calls::score(job, placement, results))?;
    let (rule, cell) = (fields.natural(), fields.natural());
    Ok(match rule {
        0 => Verdict::Legal(Numbers::taken(&mut fields, job)),
        _ => Verdict::Broken(Broken { rule, cell }),
    })
}
