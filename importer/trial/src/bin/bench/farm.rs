//! The farm's run: the thousand jobs of seeds 1 to 1000 with 64 cells, written and placed in one
//! process. Beside them a thousand dense jobs, since nearly all of the farm's have no legal
//! placement: these serve for throughput.

use crate::clock::processor_time;
use crate::dense;
use importer::{Refiner, RefusalKind, LOAD_BYTES, STORE_WORDS};
use std::hint::black_box;
use std::time::Duration;
use trial::plain;
use trial::plain::placement::text_of;
use trial::plain::reader::read_job;
use trial::plain::scorer::verdict;
use trial::plain::search::cheapest;

const CELLS: u32 = 64;

const ROUNDS: usize = 5;

/// For each job the cost of its placement; none if no legal one exists.
type Costs = Vec<Option<u32>>;

/// Shows how many jobs a second both do, by processor time and the best of some rounds in turn.
pub fn show() {
    println!(
        "{:<26}{:>10}{:>11}{:>13}{:>13}{:>8}",
        "1,000 jobs", "answered", "refused 8", "refiner", "plain Rust", "ratio"
    );
    let (load, written) = best(written, plainly_written);
    show_one("the farm's, written", load.len(), 0, written);
    show_placing("the farm's, placed", &load);
    show_placing("dense ones, placed", &dense::jobs());
}

fn show_placing(what: &str, jobs: &[Vec<u8>]) {
    let (costs, times) = best(|| placed(jobs), || plainly_placed(jobs));
    let answered = costs.iter().flatten().count();
    show_one(what, answered, costs.len() - answered, times);
}

/// A line with the jobs a second of both, and the refiner's time as a multiple of plain Rust's.
fn show_one(what: &str, answered: usize, refused: usize, times: [Duration; 2]) {
    let [refiner, plain] = times.map(|time| time.as_secs_f64());
    let [by_refiner, by_plain] = [refiner, plain].map(|time| (answered + refused) as f64 / time);
    let ratio = refiner / plain;
    println!(
        "{what:<26}{answered:>10}{refused:>11}{by_refiner:>11.0}/s{by_plain:>11.0}/s{ratio:>8.2}"
    );
}

/// What both calls give, which must be the same, and the best time of each.
fn best<T: PartialEq>(refiner: impl Fn() -> T, plain: impl Fn() -> T) -> (T, [Duration; 2]) {
    let mut best = [Duration::MAX; 2];
    let mut answers = None;
    for _ in 0..ROUNDS {
        let (of_refiner, time) = timed(&refiner);
        best[0] = best[0].min(time);
        let (of_plain, time) = timed(&plain);
        best[1] = best[1].min(time);
        assert!(of_refiner == of_plain, "the refiner and plain Rust differ");
        answers = Some(of_refiner);
    }
    (answers.expect("there is a round"), best)
}

fn timed<T>(call: impl Fn() -> T) -> (T, Duration) {
    let start = processor_time();
    let value = call();
    (value, processor_time() - start)
}

/// The farm's jobs by the refiner.
fn written() -> Vec<Vec<u8>> {
    let mut output = [0; LOAD_BYTES];
    let job = |seed| {
        let loaded = importer::load(seed, CELLS, &mut output).expect("64 cells are not too many");
        output[..loaded.text_length].to_vec()
    };
    (1..=1000).map(job).collect()
}

/// The farm's jobs by the plain generator.
fn plainly_written() -> Vec<Vec<u8>> {
    let job = |seed| plain::load::load(seed, CELLS, LOAD_BYTES);
    let job = |seed| job(seed).expect("64 cells are not too many");
    (1..=1000).map(job).collect()
}

/// Places all jobs by the refiner, one by one.
fn placed(jobs: &[Vec<u8>]) -> Costs {
    let mut refiner = Refiner::new();
    let cost = |job: &Vec<u8>| match refiner.place(job) {
        Ok(answer) => Some(answer.numbers().cost),
        Err(refused) => {
            assert_eq!(refused.kind(), RefusalKind::NoLegal, "{refused}");
            None
        }
    };
    jobs.iter().map(cost).collect()
}

/// Places all jobs by the plain search. Place leaves its store all zero, so as large a one is
/// cleared for each job.
fn plainly_placed(jobs: &[Vec<u8>]) -> Costs {
    let mut store = vec![0_u32; STORE_WORDS];
    let mut cost = |job: &Vec<u8>| {
        black_box(&mut store).fill(0);
        let job = read_job(job).expect("a job that is accepted");
        let placement = cheapest(&job)?;
        black_box(text_of(&placement));
        let numbers = verdict(&job, &placement).expect("a legal placement");
        Some(numbers.cost)
    };
    jobs.iter().map(&mut cost).collect()
}
