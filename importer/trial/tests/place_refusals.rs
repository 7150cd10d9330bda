//! Place's refusals 1 to 7 on damaged texts and small buffers, with every length of results.

use importer::STORE_WORDS_BY_TWO;
use trial::generate::damage::Damage;
use trial::generate::{jobs, Random};
use trial::lender::store_words;
use trial::lent::Arrays;
use trial::plain::reader::read_job;
use trial::plain::results::place_results;
use trial::plain::Refused;

/// Holds Place's refusals against the plain reader's, and counts those of texts that begin with `K,`.
#[derive(Default)]
struct Comparison {
    arrays: Arrays,
    led_by_k: [usize; 8],
}

impl Comparison {
    /// Calls Place with buffers that must stay as they are, and an array of the next length. An
    /// accepted job is refused with this number.
    fn check(&mut self, text: &[u8], store: &mut [u32], bytes: usize, number: u32) {
        let refused = read_job(text).err().unwrap_or(Refused { number, line: 0 });
        let expected = place_results(text, &Err(refused));
        let mut output = vec![b'x'; bytes];
        let place = |results: &mut [i32]| importer::calls::place(text, store, &mut output, results);
        let left = self.arrays.lend(place);
        if let Err(difference) = left.check(refused.number, &expected) {
            panic!("Place {difference} of\n{}", text.escape_ascii());
        }
        assert!(output.iter().all(|&byte| byte == b'x'));
        if text.starts_with(b"K,") {
            self.led_by_k[refused.number as usize] += 1;
        }
    }

    /// Checks that texts that begin with `K,` met each of these refusals.
    fn met(&self, numbers: &[usize]) {
        let met = numbers.iter().all(|&number| self.led_by_k[number] > 100);
        assert!(met, "{:?}", self.led_by_k);
    }
}

/// A job text with one damage, or with none. As often as not filled steps have a weight of their own.
fn damaged(random: &mut Random) -> Vec<u8> {
    let mut job = jobs::job_of_any_size(random);
    if random.chance(1, 2) {
        job.weights = jobs::with_filled(random, job.weights);
    }
    let mut text = job.text();
    if random.chance(3, 4) {
        let line = random.below(job.cells.len() + 1);
        random.pick(&Damage::ALL).inflict(random, &mut text, line);
    }
    text
}

#[test]
fn with_too_small_a_store() {
    let mut random = Random::new(51);
    let mut comparison = Comparison::default();
    let mut store = [7; 40];
    for _ in 0..40_000 {
        let text = damaged(&mut random);
        let words = random.below(store.len() + 1);
        let bytes = random.below(700);
        comparison.check(&text, &mut store[..words], bytes, 6);
    }
    assert_eq!(store, [7; 40]);
    comparison.met(&[1, 2, 4, 6]);
}

/// How much suffices for R 0 and 1 is too little for R 2 (A6), up to its last word.
#[test]
fn with_a_word_too_few() {
    let mut random = Random::new(53);
    let mut comparison = Comparison::default();
    let mut store = vec![7; 4_194_303];
    let mut accepted = [0; 3];
    for _ in 0..5_000 {
        let text = damaged(&mut random);
        let words: &[usize] = match read_job(&text).map(|job| job.reordering) {
            Ok(2) => &[1_048_575, 1_048_576, 4_194_303],
            _ => &[1_048_575],
        };
        for &words in words {
            comparison.check(&text, &mut store[..words], 576, 6);
        }
        if let Ok(job) = read_job(&text) {
            accepted[usize::from(job.reordering)] += 1;
        }
    }
    assert!(store.iter().all(|&word| word == 7));
    assert!(accepted.iter().all(|&jobs| jobs > 300), "{accepted:?}");
    comparison.met(&[1, 2, 6]);
}

#[test]
fn with_too_small_an_output() {
    let mut random = Random::new(52);
    let mut comparison = Comparison::default();
    let mut store = vec![7; STORE_WORDS_BY_TWO];
    for _ in 0..10_000 {
        let text = damaged(&mut random);
        let job = read_job(&text).ok().filter(|job| !job.cells.is_empty());
        if let Some(job) = job {
            let store = &mut store[..store_words(&job)];
            let enough = 9 * job.cells.len();
            comparison.check(&text, store, random.below(enough), 7);
            comparison.check(&text, store, enough - 1, 7);
        }
    }
    assert!(store.iter().all(|&word| word == 7));
    comparison.met(&[7]);
}
