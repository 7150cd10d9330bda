//! Place against trying everything, on small jobs.

use std::thread;
use trial::generate::{small, Random};
use trial::lender::Lender;
use trial::plain::brute::least;
use trial::plain::cost::Numbers;
use trial::plain::job::Job;
use trial::plain::scorer::verdict;
use trial::plain::search::cheapest;

/// How many jobs each seed gives.
const JOBS: usize = 5_000;

/// What was seen in the jobs of one seed.
#[derive(Debug, Default)]
struct Seen {
    /// Jobs without a legal placement.
    none: usize,
    /// Jobs that would be placed at less cost, or at all, if there were no rule 8.
    ends: usize,
    /// Those of them that have no legal placement.
    none_by_ends: usize,
    fixed: Fixed,
    reordered: Reordered,
    filled: Filled,
}

/// What was seen of reordering, by R.
#[derive(Debug, Default)]
struct Reordered {
    jobs: [usize; 3],
    /// Jobs that would be placed at more cost, or not at all, with an R less by one.
    cheaper: [usize; 3],
    /// Those of them that would not be placed.
    placed: [usize; 3],
}

impl Reordered {
    /// Counts a job with its least cost.
    fn count(&mut self, job: &Job, cost: Option<u32>) {
        let limit = usize::from(job.reordering);
        self.jobs[limit] += 1;
        if let Some(reordering) = job.reordering.checked_sub(1) {
            let closer = plain_cost(Job {
                reordering,
                ..job.clone()
            });
            self.cheaper[limit] += usize::from(closer != cost);
            self.placed[limit] += usize::from(closer.is_none() && cost.is_some());
        }
    }
}

/// What was seen of jobs whose filled steps have a weight of their own.
#[derive(Debug, Default)]
struct Filled {
    jobs: usize,
    /// Those in which a filled step weighs less than another, as much, and more.
    weighs: [usize; 3],
    /// Those in which it is free and another as dear as can be, and the reverse.
    extreme: [usize; 2],
    /// Those whose placement has filled steps, steps at gap 0, and both.
    steps: [usize; 3],
    /// Those that would cost more or less if all steps had the one weight, and if they had the other.
    both_bear: [usize; 2],
}

impl Filled {
    /// Counts a job with the numbers of its placement.
    fn count(&mut self, job: &Job, placed: Option<Numbers>) {
        let (step, Some(filled)) = (job.weights.step, job.weights.filled) else {
            return;
        };
        self.jobs += 1;
        let weighs = usize::from(filled >= step) + usize::from(filled > step);
        self.weighs[weighs] += 1;
        let extremes = [(1000, 0), (0, 1000)];
        for (count, extreme) in self.extreme.iter_mut().zip(extremes) {
            *count += usize::from((step, filled) == extreme);
        }
        let Some(numbers) = placed else { return };
        let filled_steps = numbers.filled_steps > 0;
        let touching = numbers.steps > numbers.filled_steps;
        let kinds = [filled_steps, touching, filled_steps && touching];
        for (count, kind) in self.steps.iter_mut().zip(kinds) {
            *count += usize::from(kind);
        }
        for (count, step) in self.both_bear.iter_mut().zip([step, filled]) {
            let mut with_one = job.clone();
            with_one.weights.step = step;
            with_one.weights.filled = None;
            *count += usize::from(plain_cost(with_one) != Some(numbers.cost));
        }
    }
}

/// What was seen of fixed cells.
#[derive(Debug, Default)]
struct Fixed {
    /// Jobs that have some.
    some: usize,
    /// Jobs in which all cells are fixed.
    all: usize,
    /// Jobs with a tall one.
    tall: usize,
    /// Jobs with one that says mirrorable 1 and two layouts.
    rich: usize,
    /// Jobs with some and with free cells, and with a legal placement.
    around: usize,
    /// Jobs that would be placed at less cost, or at all, if no cell were fixed.
    dearer: usize,
    /// Those of them that have no legal placement.
    none: usize,
    /// Jobs that have some, by D.
    by_limit: [usize; 8],
}

impl Fixed {
    /// Counts a job with its least cost.
    fn count(&mut self, job: &Job, cost: Option<u32>) {
        let fixed = || job.cells.iter().filter(|cell| cell.fixed);
        let count = fixed().count();
        if count == 0 {
            return;
        }
        let dearer = least_if_free(job) != cost;
        let all = count == job.cells.len();
        self.some += 1;
        self.all += usize::from(all);
        self.tall += usize::from(fixed().any(|cell| cell.is_tall()));
        self.rich += usize::from(fixed().any(|cell| cell.mirrorable && cell.layouts == 2));
        self.around += usize::from(!all && cost.is_some());
        self.dearer += usize::from(dearer);
        self.none += usize::from(dearer && cost.is_none());
        self.by_limit[usize::from(job.displacement)] += 1;
    }
}

/// The least cost of the job with no cell fixed, by the plain search.
fn least_if_free(job: &Job) -> Option<u32> {
    let mut free = job.clone();
    free.cells.iter_mut().for_each(|cell| cell.fixed = false);
    plain_cost(free)
}

/// The least cost by the plain search.
fn plain_cost(job: Job) -> Option<u32> {
    let placement = cheapest(&job)?;
    verdict(&job, &placement).ok().map(|numbers| numbers.cost)
}

/// Compares the jobs of one seed.
fn compare(seed: u64, draw: fn(&mut Random) -> Job) -> Seen {
    let mut random = Random::new(seed);
    let mut lender = Lender::default();
    let mut seen = Seen::default();
    for _ in 0..JOBS {
        let job = draw(&mut random);
        let least = least(&job);
        let placed = lender.place(&job);
        let cost = placed
            .as_ref()
            .map(|placed| placed.map(|numbers| numbers.cost));
        assert_eq!(cost, Ok(least.cost), "{}", job.text().escape_ascii());
        let ends = least.without_rule_8.is_some();
        seen.none += usize::from(least.cost.is_none());
        seen.ends += usize::from(ends);
        seen.none_by_ends += usize::from(least.cost.is_none() && ends);
        seen.fixed.count(&job, least.cost);
        seen.reordered.count(&job, least.cost);
        seen.filled.count(&job, placed.unwrap_or_default());
    }
    seen
}

/// Compares the jobs of each seed, and checks that they met what they are to meet; filled steps have a
/// weight of their own in some of any kind.
fn compare_all(seeds: &[u64], draw: fn(&mut Random) -> Job, met: fn(&Seen) -> bool) {
    thread::scope(|scope| {
        let run = |&seed| scope.spawn(move || compare(seed, draw));
        let runs: Vec<_> = seeds.iter().map(run).collect();
        for run in runs {
            let seen = run.join().expect("the jobs of each seed agree");
            assert!(met(&seen) && seen.filled.jobs > JOBS / 5, "{seen:?}");
        }
    });
}

#[test]
fn has_the_least_cost() {
    let met = |seen: &Seen| {
        let some = [seen.ends, seen.fixed.some, seen.fixed.all, seen.fixed.tall];
        let enough = [JOBS / 7, JOBS / 4, JOBS / 10, JOBS / 15];
        (JOBS / 10..JOBS / 2).contains(&seen.none)
            && some.iter().zip(enough).all(|(some, enough)| *some > enough)
    };
    compare_all(&[31, 32, 33], small::job, met);
}

/// Each R is as frequent as the others, and cells have reason to pass each other (A6).
#[test]
fn has_the_least_cost_with_each_reordering() {
    let met = |seen: &Seen| {
        let Reordered { jobs, cheaper, .. } = &seen.reordered;
        jobs.iter().all(|&jobs| jobs > JOBS * 3 / 10)
            && cheaper[1] > JOBS / 15
            && cheaper[2] > JOBS / 40
    };
    compare_all(&[45, 46, 47, 48], small::job_to_reorder, met);
}

/// Each job has a weight of filled steps (A7).
#[test]
fn has_the_least_cost_with_filled_steps() {
    let met = |seen: &Seen| {
        let Filled {
            jobs,
            weighs,
            extreme,
            steps,
            both_bear,
        } = &seen.filled;
        let kinds = [&weighs[..], extreme, steps, both_bear].concat();
        *jobs == JOBS && kinds.iter().all(|&jobs| jobs > JOBS / 15)
    };
    compare_all(&[49, 50, 51, 52], small::job_with_filled_steps, met);
}

/// Rows have just one empty site before their first cell or behind their last as often as not.
#[test]
fn has_the_least_cost_at_row_ends() {
    let met = |seen: &Seen| seen.ends > JOBS / 3 && seen.none_by_ends > JOBS / 10;
    compare_all(&[35, 36, 37], small::job_with_row_ends, met);
}

/// Each job has fixed cells (A2), beside free ones as often as not.
#[test]
fn has_the_least_cost_around_fixed_cells() {
    let met = |seen: &Seen| {
        let Fixed { some, by_limit, .. } = seen.fixed;
        let kinds = [seen.fixed.all, seen.fixed.tall, seen.fixed.rich];
        let answers = [seen.fixed.around, seen.fixed.dearer, seen.fixed.none];
        some == JOBS
            && kinds.iter().chain(&answers).all(|&count| count > JOBS / 10)
            && by_limit.iter().all(|&count| count > JOBS / 20)
    };
    compare_all(&[39, 40, 41, 42], small::job_with_fixed_cells, met);
}
