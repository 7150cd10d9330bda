//! The same large job with each R (A6): the more cells may be reordered, the cheaper its placement, or
//! as cheap.

use trial::generate::legal::{Shape, HEAVY};
use trial::generate::{jobs, legal, Random};
use trial::lender::Lender;
use trial::plain::job::Job;

/// The least cost with an R; none counts as more than any.
fn cost(lender: &mut Lender, job: &Job, reordering: u16) -> u32 {
    let job = Job {
        reordering,
        ..job.clone()
    };
    let placed = lender.place(&job);
    let placed = placed.unwrap_or_else(|fault| panic!("{fault} of\n{}", job.text().escape_ascii()));
    placed.map_or(u32::MAX, |numbers| numbers.cost)
}

/// A job of 8 to 64 cells, with few tall ones or many. As often as not its given rows have one-site
/// gaps and ends and some of its cells are fixed, so that it may have no placement.
fn job(random: &mut Random) -> Job {
    let cells = 8 + random.below(57);
    let broken = random.chance(1, 2);
    let shape = Shape {
        cells,
        tall: random.pick(&[0, 1, cells / 8, cells / 4, cells * 3 / 8]),
        early: random.below(cells),
        most_width: random.pick(&[1, 2, 3, 12]),
        displacement: random.from_to(1, 7),
        gaps: match broken {
            true => random.pick(&[&[0, 0, 0, 0, 1], &[0, 0, 1, 2, 3]]),
            false => random.pick(&[&[0], &[0, 0, 2], HEAVY.gaps]),
        },
        ends: if broken { &[1] } else { &[0] },
        one_site_ends: broken,
        one_site_gaps: broken,
        ..HEAVY
    };
    let mut job = legal::job(random, &shape);
    job.weights = jobs::weights(random);
    for cell in &mut job.cells {
        cell.mirrorable = random.chance(1, 2);
        cell.layouts = random.from_to(1, 2);
        cell.fixed = broken && random.chance(1, 8);
    }
    job
}

#[test]
fn never_costs_more_with_more_of_it() {
    let mut random = Random::new(91);
    let mut lender = Lender::default();
    let (mut cheaper, mut only, mut none) = ([0; 2], [0; 2], 0);
    for _ in 0..600 {
        let job = job(&mut random);
        let costs = [2, 1, 0].map(|reordering| cost(&mut lender, &job, reordering));
        let text = || job.text().escape_ascii().to_string();
        assert!(costs.is_sorted(), "{costs:?} of\n{}", text());
        for (step, pair) in costs.windows(2).enumerate() {
            cheaper[step] += usize::from(pair[0] < pair[1]);
            only[step] += usize::from(pair[0] < pair[1] && pair[1] == u32::MAX);
        }
        none += usize::from(costs[0] == u32::MAX);
    }
    assert!(cheaper.iter().all(|&jobs| jobs > 100), "{cheaper:?}");
    assert!(only.iter().all(|&jobs| jobs > 5), "{only:?} placed only so");
    assert!(none > 50, "{none} have no placement");
}
