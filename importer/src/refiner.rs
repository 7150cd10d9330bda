//! Place for many jobs: store and output held once.

use crate::{place, placement, store_words, Numbers, Pose, PoseError, Refined, Refused};
use crate::{OUTPUT_BYTES, STORE_WORDS};
use std::collections::TryReserveError;
use std::fmt;

/// A store and an output, held for many jobs. The store grows with the first job with R 2; other
/// jobs are lent as much of it as they need, since Place clears all that it is lent. Nothing is kept
/// from one job to the next, so answers are those of [`refine`](crate::refine); threads take one
/// refiner each.
///
/// ```
/// use importer::Refiner;
///
/// let jobs: [&[u8]; 2] = [
///     b"J,1,20,1,1,100,1,100,50\nC,0,2,1,1,4,3,3,2,2\nC,0,6,0,1,4,3,3,2,2\n",
///     b"J,1,20,1,1,100,7,100,50\nC,0,17,1,1,4,3,3,2,2\n",
/// ];
/// let mut refiner = Refiner::new();
/// for (job, expected) in jobs.iter().zip([100, 7]) {
///     let answer = refiner.place(job)?;
///     assert_eq!(answer.numbers().cost, expected);
/// }
/// # Ok::<(), importer::Refused>(())
/// ```
#[derive(Clone)]
pub struct Refiner {
    store: Vec<u32>,
    output: Vec<u8>,
}

/// What Place answers, with the text in the refiner's output.
#[derive(Clone, Copy, Debug, PartialEq, Eq)]
pub struct Answer<'refiner> {
    numbers: Numbers,
    text: &'refiner [u8],
}

impl Refiner {
    /// A refiner; its store takes 4 MiB, and 16 MiB from the first job with R 2 on.
    pub fn new() -> Refiner {
        Refiner {
            store: vec![0; STORE_WORDS],
            output: vec![0; OUTPUT_BYTES],
        }
    }

    /// A refiner, if there is memory for it.
    pub fn try_new() -> Result<Refiner, TryReserveError> {
        Ok(Refiner {
            store: zeros(STORE_WORDS)?,
            output: zeros(OUTPUT_BYTES)?,
        })
    }

    /// Takes the memory that a job's store needs, if it is there. [`place`](Refiner::place) takes it
    /// too, but ends the program where there is none.
    pub fn try_reserve(&mut self, job: &[u8]) -> Result<(), TryReserveError> {
        let more = store_words(job).saturating_sub(self.store.len());
        self.store.try_reserve_exact(more)
    }

    /// Whether its store is large enough for a job as it is.
    pub(crate) fn has_store_for(&self, job: &[u8]) -> bool {
        store_words(job) <= self.store.len()
    }

    /// Places a job. The answer lies in the refiner until the next job;
    /// [`to_refined`](Answer::to_refined) copies it.
    pub fn place(&mut self, job: &[u8]) -> Result<Answer<'_>, Refused> {
        let words = store_words(job);
        if self.store.len() < words {
            self.store.resize(words, 0);
        }
        let placed = place(job, &mut self.store[..words], &mut self.output)?;
        let text = self.output.get(..placed.text_length);
        Ok(Answer {
            numbers: placed.numbers,
            text: text.unwrap_or_default(),
        })
    }
}

/// So many zeros, for a buffer that is lent.
fn zeros<T: Clone + Default>(count: usize) -> Result<Vec<T>, TryReserveError> {
    let mut zeros = Vec::new();
    zeros.try_reserve_exact(count)?;
    zeros.resize(count, T::default());
    Ok(zeros)
}

impl Default for Refiner {
    fn default() -> Refiner {
        Refiner::new()
    }
}

/// Without the words of the store, of which there are too many to be shown.
impl fmt::Debug for Refiner {
    fn fmt(&self, out: &mut fmt::Formatter<'_>) -> fmt::Result {
        out.debug_struct("Refiner").finish_non_exhaustive()
    }
}

impl<'refiner> Answer<'refiner> {
    /// The placement's numbers.
    pub fn numbers(&self) -> Numbers {
        self.numbers
    }

    /// The placement's text: one line `site,layout,mirror` for each cell, in file order.
    pub fn text(&self) -> &'refiner [u8] {
        self.text
    }

    /// The placement as a pose for each cell, in file order.
    pub fn poses(&self) -> Result<Vec<Pose>, PoseError> {
        placement::parse(self.text)
    }

    /// The answer by itself.
    pub fn to_refined(&self) -> Refined {
        Refined {
            numbers: self.numbers,
            text: self.text.to_vec(),
        }
    }
}

#[cfg(test)]
mod tests {
    use super::*;
    use crate::STORE_WORDS_BY_TWO;

    /// A job without cells.
    fn job(reordering: u32) -> Vec<u8> {
        format!("J,1,9,0,{reordering},1,1,1,1\n").into()
    }

    /// How many words of its store a refiner lends to a job: Place clears those.
    fn lent(refiner: &mut Refiner, reordering: u32) -> usize {
        refiner.store.fill(7);
        assert!(refiner.place(&job(reordering)).is_ok());
        let cleared = refiner.store.iter().take_while(|&&word| word == 0).count();
        assert!(refiner.store[cleared..].iter().all(|&word| word == 7));
        cleared
    }

    #[test]
    fn a_store_grows_once_and_is_lent_as_far_as_a_job_needs_it() {
        let mut refiner = Refiner::new();
        for (reordering, words, held) in [
            (0, STORE_WORDS, STORE_WORDS),
            (1, STORE_WORDS, STORE_WORDS),
            (2, STORE_WORDS_BY_TWO, STORE_WORDS_BY_TWO),
            (1, STORE_WORDS, STORE_WORDS_BY_TWO),
            (2, STORE_WORDS_BY_TWO, STORE_WORDS_BY_TWO),
            (0, STORE_WORDS, STORE_WORDS_BY_TWO),
        ] {
            assert_eq!(lent(&mut refiner, reordering), words, "R {reordering}");
            assert_eq!(refiner.store.len(), held, "R {reordering}");
        }
    }

    #[test]
    fn memory_is_taken_for_a_job_that_needs_more() {
        let mut refiner = Refiner::try_new().expect("there is memory");
        let mut room = |reordering| {
            let taken = refiner.try_reserve(&job(reordering));
            taken.map(|()| refiner.store.capacity())
        };
        assert_eq!(room(1), Ok(STORE_WORDS));
        assert_eq!(room(2), Ok(STORE_WORDS_BY_TWO));
        assert_eq!(room(1), Ok(STORE_WORDS_BY_TWO));
    }
}
