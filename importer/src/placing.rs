//! Place, with its answer as a struct.

use crate::fields::Fields;
use crate::{calls, explain, placement, Numbers, Pose, PoseError, Refused};

/// How many words of store Place needs for a job with R 0 or 1.
pub const STORE_WORDS: usize = 1_048_576;

/// How many words of store Place needs for a job with R 2.
pub const STORE_WORDS_BY_TWO: usize = 4_194_304;

/// How many bytes of output Place needs for any job: 9 for each of 64 cells.
pub const OUTPUT_BYTES: usize = 9 * 64;

/// What Place answers of a job that has a legal placement.
#[derive(Clone, Copy, Debug, PartialEq, Eq)]
pub struct Placed {
    /// The placement's numbers.
    pub numbers: Numbers,
    /// How many bytes of the output are the placement's text.
    pub text_length: usize,
}

/// How many words of store Place needs for a job, by the R of its first line. Where that cannot be
/// read Place refuses the job, whatever the store; the answer is then [`STORE_WORDS`].
///
/// ```
/// use importer::{store_words, STORE_WORDS, STORE_WORDS_BY_TWO};
///
/// assert_eq!(store_words(b"J,1,20,1,1,100,1,100,50\n"), STORE_WORDS);
/// assert_eq!(store_words(b"J,1,20,1,2,100,1,100,50\n"), STORE_WORDS_BY_TWO);
/// ```
pub fn store_words(job: &[u8]) -> usize {
    match explain::read_header(job) {
        Ok(header) if header.reordering == 2 => STORE_WORDS_BY_TWO,
        _ => STORE_WORDS,
    }
}

/// Places a job in lent buffers of any size: writes the text of a cheapest legal placement to the
/// start of `output`. The store is all zero after an answer and after refusal 8; [`store_words`]
/// tells how large it must be.
pub fn place(job: &[u8], store: &mut [u32], output: &mut [u8]) -> Result<Placed, Refused> {
    let call = |results: &mut [i32]| calls::place(job, store, output, results);
    // The numbers, then the text's length.
    let mut fields = Fields::of(Numbers::count(job) + 1, call)?;
    Ok(Placed {
        numbers: Numbers::taken(&mut fields, job),
        text_length: fields.length(),
    })
}

/// A placed job: the numbers and the text of its placement.
#[derive(Clone, Debug, PartialEq, Eq)]
pub struct Refined {
    /// The placement's numbers.
    pub numbers: Numbers,
    /// One line `site,layout,mirror` for each cell, in file order.
    pub text: Vec<u8>,
}

impl Refined {
    /// The placement as a pose for each cell, in file order.
    pub fn poses(&self) -> Result<Vec<Pose>, PoseError> {
        placement::parse(&self.text)
    }
}

/// Places a job with as much store as it needs and an output for any job. For many jobs, a
/// [`Refiner`](crate::Refiner) holds both once.
///
/// ```
/// let job = b"J,1,20,1,1,100,1,100,50\nC,0,2,1,1,4,3,3,2,2\nC,0,6,0,1,4,3,3,2,2\n";
/// let refined = importer::refine(job)?;
/// assert_eq!(refined.numbers.cost, 100);
/// assert_eq!(refined.text, b"2,0,1\n6,0,0\n");
/// # Ok::<(), importer::Refused>(())
/// ```
pub fn refine(job: &[u8]) -> Result<Refined, Refused> {
    let mut store = vec![0; store_words(job)];
    let mut text = vec![0; OUTPUT_BYTES];
    let placed = place(job, &mut store, &mut text)?;
    text.truncate(placed.text_length);
    Ok(Refined {
        numbers: placed.numbers,
        text,
    })
}
