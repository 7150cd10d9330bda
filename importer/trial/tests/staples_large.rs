//! The plain search for staples (A10) on large jobs: against a sweep over all sites, and on the same
//! job reflected and with its rows exchanged.

use std::collections::HashMap;
use std::thread;
use trial::generate::{staples as generate, Random};
use trial::plain::job::{Cell, Job};
use trial::plain::reader::read_job;
use trial::plain::staples::{is_plain, most, staples};

/// How many jobs each seed gives.
const JOBS: usize = 2_000;

/// A row at a site.
#[derive(Clone, Copy, Default, PartialEq, Eq, Hash)]
struct Row {
    /// How many of its cells have begun.
    begun: usize,
    /// How many sites of the last of them are still to come.
    left: u16,
    /// How many sites before this one are empty; 2 stands for more.
    empty: u8,
}

impl Row {
    /// The row one site further, if that is empty.
    fn skip(self) -> Option<Row> {
        let empty = (self.empty + 1).min(2);
        (self.left == 0).then_some(Row { empty, ..self })
    }

    /// The row one site further, if that is covered.
    fn cover(self, job: &Job, cells: &[&Cell], site: u16) -> Option<Row> {
        if self.left > 0 {
            let left = self.left - 1;
            return Some(Row { left, ..self });
        }
        let cell = cells.get(self.begun)?;
        let near = cell.given.abs_diff(site) <= job.displacement_of(cell);
        (near && self.empty != 1).then_some(Row {
            begun: self.begun + 1,
            left: cell.layout[0].width - 1,
            empty: 0,
        })
    }

    /// Whether the next cell may still begin at this site or a later one.
    fn is_in_time(&self, job: &Job, cells: &[&Cell], site: u16) -> bool {
        let next = cells.get(self.begun);
        next.is_none_or(|cell| site <= cell.given + job.displacement_of(cell))
    }

    /// Whether the row may end here.
    fn is_done(&self, cells: &[&Cell]) -> bool {
        let closed = cells.is_empty() || self.empty != 1;
        self.begun == cells.len() && self.left == 0 && closed
    }
}

/// The most staples, by going over the sites: what matters at each is the state of both rows.
fn by_sweep(job: &Job) -> Option<usize> {
    let rows = [0, 1].map(|row| {
        let cells = job.cells.iter().filter(|cell| cell.row == row);
        cells.collect::<Vec<_>>()
    });
    let mut states = HashMap::from([([Row::default(); 2], 0)]);
    for site in 0..job.sites {
        let mut further = HashMap::new();
        for (state, count) in states {
            let ways = [0, 1].map(|row| {
                let in_time = |next: &Row| next.is_in_time(job, &rows[row], site + 1);
                let covered = state[row].cover(job, &rows[row], site);
                [state[row].skip(), covered].map(|next| next.filter(in_time))
            });
            for (at_0, row_0) in ways[0].iter().enumerate() {
                for (at_1, row_1) in ways[1].iter().enumerate() {
                    if let (Some(row_0), Some(row_1)) = (row_0, row_1) {
                        let count = count + usize::from(at_0 + at_1 == 0);
                        let most = further.entry([*row_0, *row_1]).or_insert(count);
                        *most = count.max(*most);
                    }
                }
            }
        }
        states = further;
    }
    let done = |state: &[Row; 2]| (0..2).all(|row| state[row].is_done(&rows[row]));
    let ends = states.into_iter().filter(|(state, _)| done(state));
    ends.map(|(_, count)| count).max()
}

/// The most staples by the search, whose placement must have them and be of the kind.
fn found(job: &Job) -> Option<usize> {
    let (placement, count) = most(job)?;
    assert!(is_plain(job, &placement), "{}", job.text().escape_ascii());
    assert_eq!(staples(job, &placement), count);
    Some(count)
}

/// The job seen from its other end, if none of its given cells runs past the row.
fn reflected(job: &Job) -> Option<Job> {
    let mut reflected = job.clone();
    reflected.cells.reverse();
    for cell in &mut reflected.cells {
        let end = cell.given + cell.layout[0].width;
        cell.given = job.sites.checked_sub(end)?;
    }
    Some(reflected)
}

fn with_rows_exchanged(job: &Job) -> Job {
    let mut exchanged = job.clone();
    let cells = exchanged.cells.iter_mut();
    cells.for_each(|cell| cell.row = 1 - cell.row);
    exchanged
}

/// What was seen in the jobs of a seed.
#[derive(Debug, Default)]
struct Seen {
    /// Jobs with a placement of the kind, and jobs without.
    placed: usize,
    none: usize,
    /// Jobs with fixed cells.
    fixed: usize,
    /// Jobs with more than 40 cells.
    large: usize,
    /// Jobs that were also reflected.
    reflected: usize,
}

/// Compares the jobs of a seed.
fn compare(seed: u64) -> Seen {
    let mut random = Random::new(seed);
    let mut seen = Seen::default();
    for _ in 0..JOBS {
        let job = generate::large_job(&mut random);
        let text = || job.text().escape_ascii().to_string();
        assert!(read_job(&job.text()).is_ok(), "{}", text());
        let most = found(&job);
        assert_eq!(most, by_sweep(&job), "{}", text());
        assert_eq!(most, found(&with_rows_exchanged(&job)), "{}", text());
        if let Some(reflected) = reflected(&job) {
            assert_eq!(most, found(&reflected), "{}", text());
            seen.reflected += 1;
        }
        seen.placed += usize::from(most.is_some());
        seen.none += usize::from(most.is_none());
        seen.fixed += usize::from(job.fixed_cells() > 0);
        seen.large += usize::from(job.cells.len() > 40);
    }
    seen
}

/// Of the 2,000 jobs of each seed more than 1,500 have a placement of the kind, and more than 150 none.
#[test]
fn large_jobs_have_the_most() {
    thread::scope(|scope| {
        let runs = [111, 112].map(|seed| scope.spawn(move || compare(seed)));
        for run in runs {
            let seen = run.join().expect("the jobs of each seed agree");
            assert!(seen.placed > 1_500 && seen.none > 150, "{seen:?}");
            assert!(seen.fixed > JOBS / 5, "{seen:?}");
            assert!(seen.large > JOBS / 10, "{seen:?}");
            assert!(seen.reflected > JOBS / 2, "{seen:?}");
        }
    });
}
