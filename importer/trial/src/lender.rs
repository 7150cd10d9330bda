//! Lends Place its buffers, and holds what it leaves in them against what it should leave.

use crate::lent::Arrays;
use crate::plain::cost::Numbers;
use crate::plain::job::Job;
use crate::plain::placement::read_placement;
use crate::plain::results::place_results;
use crate::plain::scorer::verdict;
use crate::plain::Refused;
use importer::{STORE_WORDS, STORE_WORDS_BY_TWO};

/// How many words of store Place needs for a job (A6).
pub fn store_words(job: &Job) -> usize {
    match job.reordering {
        0 | 1 => STORE_WORDS,
        _ => STORE_WORDS_BY_TWO,
    }
}

/// A byte that no placement text has, and a word to dirty the store with.
const UNTOUCHED: u8 = 0xaa;
const DIRT: u32 = 0xdead_beef;

/// Place's refusal of a job that has no legal placement.
const NO_PLACEMENT: Refused = Refused { number: 8, line: 0 };

#[derive(Default)]
pub struct Lender {
    arrays: Arrays,
    /// For jobs with R 0 or 1, and for jobs with R 2.
    stores: [Store; 2],
    calls: usize,
}

/// A store that is lent again and again, and dirtied before every fourth call.
#[derive(Default)]
struct Store {
    words: Vec<u32>,
    calls: usize,
}

impl Store {
    /// So many words, all of them dirty, or those that the last call was lent; and whether they are
    /// to be looked through after the call. All are if there are few enough to do so each time.
    fn lend(&mut self, words: usize) -> (&mut [u32], bool) {
        let dirty = self.calls.is_multiple_of(4);
        if dirty {
            self.words.clear();
            self.words.resize(words, DIRT);
        }
        self.calls += 1;
        (&mut self.words, dirty || words < STORE_WORDS_BY_TWO)
    }
}

impl Lender {
    /// Places an accepted job, with enough store and output, and a result array of the next
    /// length. The numbers of the placement that was written, as the plain scorer has them, or
    /// none after refusal 8; an error says what is not as it should be.
    pub fn place(&mut self, job: &Job) -> Result<Option<Numbers>, String> {
        let spare = self.calls % 5;
        self.calls += 1;
        let store = &mut self.stores[usize::from(job.reordering == 2)];
        let (store, look_through) = store.lend(store_words(job) + spare);
        let mut output = vec![UNTOUCHED; 9 * job.cells.len() + spare];
        let text = job.text();
        let left = self
            .arrays
            .lend(|results| importer::calls::place(&text, store, &mut output, results));
        let placed = match left.returned() {
            number if number == NO_PLACEMENT.number => Err(NO_PLACEMENT),
            _ => Ok(answer(job, &output)?),
        };
        let expected = place_results(&text, &placed);
        left.check(expected[0] as u32, &expected)?;
        if placed.is_err() && output.iter().any(|&byte| byte != UNTOUCHED) {
            return Err("the output was written after a refusal".into());
        }
        let words = || store.iter().fold(0, |words, word| words | word);
        if look_through && words() != 0 {
            return Err("the store is not all zero".into());
        }
        Ok(placed.ok().map(|(numbers, _)| numbers))
    }
}

/// The numbers of the placement in an output, and the length of its text.
fn answer(job: &Job, output: &[u8]) -> Result<(Numbers, usize), String> {
    let untouched = output.iter().rev().take_while(|&&byte| byte == UNTOUCHED);
    let text = &output[..output.len() - untouched.count()];
    let placement = read_placement(text, job.cells.len())
        .map_err(|line| format!("line {line} of the output is no placement's"))?;
    let numbers = verdict(job, &placement).map_err(|broken| format!("{broken:?}"))?;
    Ok((numbers, text.len()))
}
