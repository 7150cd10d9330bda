//! The numbers of a legal placement, which several operations have among their fields.

use crate::fields::Fields;
use std::fmt;

/// Whether a job's numbers end with its filled steps: those of a text whose first two bytes are
/// `K,` do, refused or not. Whoever counts the fields of an answer asks here.
///
/// ```
/// use importer::has_filled_steps;
///
/// assert!(has_filled_steps(b"K,1,20,1,1,100,1,100,50,30\n"));
/// assert!(has_filled_steps(b"K,"));
/// assert!(!has_filled_steps(b"J,1,20,1,1,100,1,100,50\n"));
/// assert!(!has_filled_steps(b"K"));
/// ```
pub fn has_filled_steps(job: &[u8]) -> bool {
    job.starts_with(b"K,")
}

/// The numbers of a legal placement.
///
/// ```
/// let job = b"J,1,20,1,1,100,1,100,50\nC,0,2,1,1,4,3,3,2,2\nC,0,6,0,1,4,3,3,2,2\n";
/// let numbers = importer::refine(job)?.numbers;
/// let told = "cost 100, steps 0, sites shifted 0, mirrored 1, changed 0, drift 0";
/// assert_eq!(numbers.to_string(), told);
///
/// // Nothing may shift, and two sites are between the cells.
/// let job = b"K,1,10,0,0,100,1,100,50,30\nC,0,0,0,1,4,3,3,2,2\nC,0,6,0,1,4,3,3,2,2\n";
/// let numbers = importer::refine(job)?.numbers;
/// assert_eq!((numbers.cost, numbers.steps, numbers.filled), (60, 2, Some(2)));
/// # Ok::<(), importer::Refused>(())
/// ```
#[derive(Clone, Copy, Debug, PartialEq, Eq)]
pub struct Numbers {
    /// Facing heights that differ, at gaps that are charged: 0, 2 and 3.
    pub steps: u32,
    /// Sites shifted.
    pub shifted: u32,
    /// Cells mirrored.
    pub mirrored: u32,
    /// Cells in layout 1.
    pub changed: u32,
    /// The numbers above by the job's weights; filled steps have their own in a job that says it.
    pub cost: u32,
    /// Mean signed shift in hundredths of a site, rounded to nearest, halves to even.
    pub drift: i32,
    /// The filled steps, which are those at gaps 2 and 3; none where
    /// [the job has no such number](has_filled_steps).
    pub filled: Option<u32>,
}

impl Numbers {
    /// How many fields they are for a job.
    pub(crate) fn count(job: &[u8]) -> usize {
        6 + usize::from(has_filled_steps(job))
    }

    /// Takes them from the fields of an answer to a job, where they stand in this order.
    pub(crate) fn taken(fields: &mut Fields, job: &[u8]) -> Numbers {
        Numbers {
            steps: fields.natural(),
            shifted: fields.natural(),
            mirrored: fields.natural(),
            changed: fields.natural(),
            cost: fields.natural(),
            drift: fields.signed(),
            filled: has_filled_steps(job).then(|| fields.natural()),
        }
    }

    /// The line that `refine` prints of them: `cost,steps,sites shifted,mirrored,changed,drift`,
    /// and then the filled steps if they are there.
    pub fn fields(&self) -> String {
        let Numbers {
            steps,
            shifted,
            mirrored,
            changed,
            cost,
            drift,
            filled,
        } = self;
        let six = format!("{cost},{steps},{shifted},{mirrored},{changed},{drift}");
        match filled {
            Some(filled) => format!("{six},{filled}"),
            None => six,
        }
    }
}

/// Each number behind its name, in the order in which `refine` prints them.
impl fmt::Display for Numbers {
    fn fmt(&self, out: &mut fmt::Formatter<'_>) -> fmt::Result {
        let Numbers {
            steps,
            shifted,
            mirrored,
            changed,
            cost,
            drift,
            filled,
        } = self;
        write!(out, "cost {cost}, steps {steps}, sites shifted {shifted}, ")?;
        write!(out, "mirrored {mirrored}, changed {changed}, drift {drift}")?;
        match filled {
            Some(filled) => write!(out, ", filled steps {filled}"),
            None => Ok(()),
        }
    }
}
