//! The plain search against trying everything, on small jobs.

use std::thread;
use trial::generate::{small, Random};
use trial::plain::brute::least;
use trial::plain::job::Job;
use trial::plain::scorer::verdict;
use trial::plain::search::cheapest;

/// How many jobs each run compares.
const JOBS: usize = 5_000;

/// The cost of the plain search's placement, which must be legal.
fn cost(job: &Job) -> Option<u32> {
    let placement = cheapest(job)?;
    let numbers = verdict(job, &placement);
    Some(numbers.expect("the plain search's placement is legal").cost)
}

/// Compares jobs from a seed, and says in how many of them rule 8 bears on the answer.
fn compare(seed: u64, draw: fn(&mut Random) -> Job) -> usize {
    let mut random = Random::new(seed);
    let mut met = 0;
    for _ in 0..JOBS {
        let job = draw(&mut random);
        let least = least(&job);
        assert_eq!(cost(&job), least.cost, "{}", job.text().escape_ascii());
        met += usize::from(least.without_rule_8.is_some());
    }
    met
}

#[test]
fn has_the_least_cost() {
    thread::scope(|scope| {
        let any = scope.spawn(|| compare(61, small::job));
        let ends = scope.spawn(|| compare(62, small::job_with_row_ends));
        let fixed = scope.spawn(|| compare(63, small::job_with_fixed_cells));
        let reordered = scope.spawn(|| compare(64, small::job_to_reorder));
        let filled = scope.spawn(|| compare(65, small::job_with_filled_steps));
        let runs = [any, ends, fixed, reordered, filled];
        let met = runs.map(|run| run.join().expect("the jobs of each seed agree"));
        let least = [JOBS / 6, JOBS / 3, JOBS / 20, JOBS / 10, JOBS / 10];
        assert!(
            met.iter().zip(least).all(|(&met, least)| met > least),
            "{met:?}"
        );
    });
}
