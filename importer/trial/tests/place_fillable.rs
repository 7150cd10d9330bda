//! What the fill engineer asks of a placed row (A1): wherever sites are empty, between cells and at
//! the row's ends, they are two or more. Rows are looked at site by site.

use importer::{place, Placed, OUTPUT_BYTES, STORE_WORDS_BY_TWO};
use trial::generate::{placements, small, Random};
use trial::lender::store_words;
use trial::plain::job::{Cell, Job};

/// The sites of a row that a placement text takes, from left to right.
fn taken(job: &Job, text: &str, row: usize) -> Vec<bool> {
    let mut taken = vec![false; job.sites.into()];
    let in_row = |(cell, _): &(&Cell, &str)| cell.rows().contains(&row);
    for (cell, line) in job.cells.iter().zip(text.lines()).filter(in_row) {
        let numbers: Vec<usize> = line.split(',').flat_map(str::parse).collect();
        let (site, layout) = (numbers[0], numbers[1]);
        taken[site..][..cell.layout[layout].width.into()].fill(true);
    }
    taken
}

/// What was seen in rows that hold a cell.
#[derive(Debug, Default)]
struct Seen {
    rows: usize,
    /// How many began, and ended, with a cell; with two empty sites; with more.
    starts: [usize; 3],
    ends: [usize; 3],
    /// Runs of empty sites, all of two or more.
    runs: usize,
}

impl Seen {
    fn check(&mut self, job: &Job, text: &str) {
        for row in 0..job.rows.into() {
            let taken = taken(job, text, row);
            if !taken.contains(&true) {
                continue;
            }
            // Between two sites that touch there is a run of length 0.
            let runs: Vec<usize> = taken.split(|&taken| taken).map(<[bool]>::len).collect();
            let texts = || format!("{}{text}", job.text().escape_ascii());
            assert!(!runs.contains(&1), "row {row}: {runs:?} of\n{}", texts());
            self.rows += 1;
            self.starts[kind(runs[0])] += 1;
            self.ends[kind(runs[runs.len() - 1])] += 1;
            self.runs += runs.iter().filter(|&&run| run > 0).count();
        }
    }
}

/// 0 for no empty site, 1 for two, 2 for more.
fn kind(run: usize) -> usize {
    run.saturating_sub(1).min(2)
}

/// Places so many jobs and looks at the rows of each that has a placement.
fn look(seed: u64, jobs: usize, draw: impl Fn(&mut Random) -> Job) -> Seen {
    let mut random = Random::new(seed);
    let mut store = vec![0; STORE_WORDS_BY_TWO];
    let mut seen = Seen::default();
    for _ in 0..jobs {
        let job = draw(&mut random);
        let store = &mut store[..store_words(&job)];
        let mut output = [0; OUTPUT_BYTES];
        if let Ok(Placed { text_length, .. }) = place(&job.text(), store, &mut output) {
            let text = std::str::from_utf8(&output[..text_length]);
            seen.check(&job, text.expect("a placement text is one of digits"));
        }
    }
    seen
}

#[test]
fn on_small_jobs() {
    let any = look(71, 10_000, small::job);
    let ends = look(72, 10_000, small::job_with_row_ends);
    for seen in [any, ends] {
        assert!(seen.rows > 5_000 && seen.runs > 5_000, "{seen:?}");
        let kinds = seen.starts.iter().chain(&seen.ends);
        assert!(kinds.clone().all(|&kind| kind > 500), "{seen:?}");
    }
}

#[test]
fn on_jobs_of_every_size() {
    let seen = look(73, 1_000, |random| {
        placements::job_with_legal_placement(random).0
    });
    assert!(seen.rows > 1_000 && seen.runs > 5_000, "{seen:?}");
}
