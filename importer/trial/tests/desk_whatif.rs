//! What the desk is told of a job with other limits, against the plain search on generated jobs.

use importer::desk::{whatif, Ways, DISPLACEMENTS, REORDERINGS};
use trial::generate::{small, Random};
use trial::plain::job::{Job, MOST_REORDERING};
use trial::plain::scorer::verdict;
use trial::plain::search::cheapest;

/// How many jobs are tried, and at most how many of them that have no legal placement with any R.
const JOBS: usize = 200;
const MOST_NONE: usize = 25;

const MOST_SITES: u16 = 1024;

/// The least cost by the plain search; none if there is no legal placement.
fn cost(job: &Job) -> Option<u32> {
    let placement = cheapest(job)?;
    let numbers = verdict(job, &placement).expect("the plain search finds legal placements");
    Some(numbers.cost)
}

fn with(job: &Job, change: impl Fn(&mut Job)) -> Job {
    let mut job = job.clone();
    change(&mut job);
    job
}

/// The first of these numbers with which the changed job has a legal placement.
fn first(
    job: &Job,
    mut numbers: impl Iterator<Item = u16>,
    change: fn(&mut Job, u16),
) -> Option<u32> {
    let placed = |number: &u16| cheapest(&with(job, |job| change(job, *number))).is_some();
    numbers.find(placed).map(u32::from)
}

/// The first fixed cell with which the job has a legal placement if it is not fixed.
fn freed(job: &Job) -> Option<u32> {
    let fixed = (0..job.cells.len()).filter(|&at| job.cells[at].fixed);
    let mut placed =
        fixed.filter(|&at| cheapest(&with(job, |job| job.cells[at].fixed = false)).is_some());
    placed.next().map(|at| at as u32 + 1)
}

/// What a job without a legal placement lacks.
fn plain_ways(job: &Job) -> Ways {
    let kept = (0..job.cells.len()).rev();
    let placed = |&kept: &usize| cheapest(&with(job, |job| job.cells.truncate(kept))).is_some();
    let kept = kept
        .filter(placed)
        .max()
        .expect("a job without cells is placed");
    Ways {
        cell: kept as u32 + 1,
        displacement: first(job, 0..=7, |job, number| job.displacement = number),
        reordering: first(job, 0..=MOST_REORDERING, |job, number| {
            job.reordering = number
        }),
        sites: first(job, 1..=MOST_SITES, |job, number| job.sites = number),
        more_sites: first(job, job.sites + 1..=MOST_SITES, |job, number| {
            job.sites = number
        }),
        freed: freed(job),
    }
}

#[test]
fn figures_are_those_of_the_plain_search() {
    let mut random = Random::new(83);
    let (mut placed, mut none, mut fewer, mut helped) = (0, 0, 0, [0; 4]);
    let mut filled = 0;
    for _ in 0..JOBS {
        let draws = [small::job, small::job_with_row_ends];
        let fixed: fn(&mut Random) -> Job = small::job_with_fixed_cells;
        let draw = match random.below(4) {
            0 => fixed,
            _ => random.pick(&draws),
        };
        let job = draw(&mut random);
        let with_any_order = cheapest(&with(&job, |job| job.reordering = MOST_REORDERING));
        if with_any_order.is_none() && none >= MOST_NONE {
            continue;
        }
        let told = whatif(&job.text()).expect("the job is accepted");
        let text = || job.text().escape_ascii().to_string();
        filled += usize::from(job.weights.filled.is_some());
        for displacement in DISPLACEMENTS {
            for reordering in REORDERINGS {
                let changed = with(&job, |job| {
                    job.displacement = displacement as u16;
                    job.reordering = reordering as u16;
                });
                let told = told.cost(displacement, reordering);
                assert_eq!(told, cost(&changed), "{}", text());
            }
        }
        assert_eq!(told.own_cost(), cost(&job), "{}", text());
        let Some(ways) = told.ways else {
            placed += 1;
            continue;
        };
        assert_eq!(ways, plain_ways(&job), "{}", text());
        none += 1;
        fewer += usize::from(ways.sites.is_some_and(|sites| sites < job.sites.into()));
        assert_eq!(told.fixed, job.fixed_cells());
        let limits = [ways.displacement, ways.reordering, ways.sites, ways.freed];
        let found = limits.map(|limit| usize::from(limit.is_some()));
        helped
            .iter_mut()
            .zip(found)
            .for_each(|(all, found)| *all += found);
    }
    assert!(
        placed > 100 && none > 20 && fewer > 1,
        "{placed} {none} {fewer}"
    );
    assert!(helped.iter().all(|&helped| helped > 0), "{helped:?}");
    assert!(filled > 20, "{filled} weigh filled steps");
}
