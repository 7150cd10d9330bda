//! Load against the plain generator, byte for byte, and each text it writes against Read.

use std::collections::BTreeMap;
use trial::generate::Random;
use trial::lent::Arrays;
use trial::plain::job::{MOST_CELLS, MOST_TALL};
use trial::plain::load::{load, OUTPUT};

/// How many seeds of each count of cells are drawn: with 65 counts more than 100,000 pairs.
const SEEDS: usize = 1_540;

/// The seeds at the ends of 32 bits and in their middle.
const EDGES: [u32; 8] = [
    0,
    1,
    2,
    (1 << 31) - 1,
    1 << 31,
    (1 << 31) + 1,
    u32::MAX - 1,
    u32::MAX,
];

/// Holds Load against the plain generator, pair by pair, and counts what was seen.
#[derive(Default)]
struct Comparison {
    arrays: Arrays,
    pairs: usize,
    /// How many texts had so many tall cells.
    tall: BTreeMap<usize, usize>,
}

impl Comparison {
    fn compare(&mut self, seed: u32, cells: u32) {
        let text = load(seed, cells, OUTPUT).expect("the count is at most 64");
        let mut expected = self.pattern();
        let mut output = expected.clone();
        expected[..text.len()].copy_from_slice(&text);
        let left = self
            .arrays
            .lend(|results| importer::calls::load(seed, cells, &mut output, results));
        if let Err(difference) = left.check(0, &[0, 0, text.len() as i32]) {
            panic!("Load {difference} of seed {seed} with {cells} cells");
        }
        assert!(output == expected, "seed {seed}, {cells} cells");
        let read = importer::read(&output[..text.len()]).map(|read| read.cells);
        assert_eq!(read, Ok(cells), "seed {seed}");
        self.pairs += 1;
        let tall = tall_cells(&output[..text.len()]);
        *self.tall.entry(tall).or_default() += 1;
    }

    /// An output that is as long as it must be, or longer, in another pattern each time.
    fn pattern(&self) -> Vec<u8> {
        let spare = self.pairs % 7;
        let byte = |at: usize| (at * 31 + self.pairs * 17) as u8;
        (0..OUTPUT + spare).map(byte).collect()
    }
}

/// How many lines of a text are of tall cells.
fn tall_cells(text: &[u8]) -> usize {
    let lines = text.split(|&byte| byte == b'\n');
    lines.filter(|line| line.starts_with(b"C,2,")).count()
}

#[test]
fn on_every_count_of_cells() {
    let mut random = Random::new(71);
    let mut comparison = Comparison::default();
    for cells in 0..=MOST_CELLS as u32 {
        for seed in EDGES {
            comparison.compare(seed, cells);
        }
        for _ in 0..SEEDS {
            let seed = random.below(1 << 32) as u32;
            comparison.compare(seed, cells);
        }
    }
    assert!(comparison.pairs > 100_000, "{}", comparison.pairs);
    check_tall(&comparison);
}

#[test]
fn on_the_farms_thousand_jobs() {
    let mut comparison = Comparison::default();
    for seed in 1..=1_000 {
        comparison.compare(seed, MOST_CELLS as u32);
    }
    check_tall(&comparison);
}

/// A 25th tall cell never comes, though it would in many a job if the row were drawn from 0 to 2
/// all the time.
fn check_tall(comparison: &Comparison) {
    let tall = &comparison.tall;
    let most = tall.last_key_value();
    assert!(
        most.is_some_and(|(&most, &texts)| most == MOST_TALL && texts > 100),
        "{tall:?}"
    );
}

/// The seed 0 is taken as 1, and no other seed as another.
#[test]
fn seeds_0_and_1_alone_have_the_same_text() {
    let job = |seed| importer::farm_job(seed, 64).expect("64 cells are not too many");
    assert_eq!(job(0), job(1));
    let mut texts: Vec<Vec<u8>> = EDGES[1..].iter().map(|&seed| job(seed)).collect();
    texts.sort();
    texts.dedup();
    assert_eq!(texts.len(), EDGES.len() - 1);
}

/// One cell more adds its line, and nothing before it changes.
#[test]
fn a_load_begins_with_those_of_fewer_cells() {
    let mut random = Random::new(72);
    for _ in 0..50 {
        let seed = random.below(1 << 32) as u32;
        let job = |cells| importer::farm_job(seed, cells).expect("64 cells are not too many");
        let whole = job(64);
        let mut lines = whole.split_inclusive(|&byte| byte == b'\n');
        let mut begun = lines.next().expect("a header").to_vec();
        for cells in 0..=64 {
            assert_eq!(job(cells), begun, "seed {seed}");
            begun.extend(lines.next().unwrap_or_default());
        }
    }
}
