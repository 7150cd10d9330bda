//! Place on large jobs: never dearer than a local search from the given rows, and as cheap as the
//! plain search.

use trial::generate::legal::{Shape, HEAVY};
use trial::generate::{jobs, legal, placements, Random};
use trial::lender::Lender;
use trial::plain::cost::Numbers;
use trial::plain::job::{Job, MOST_REORDERING};
use trial::plain::local::improve;
use trial::plain::placement::{given_rows, Placement};
use trial::plain::scorer::verdict;
use trial::plain::search::cheapest;

/// Places a job of which a legal placement is known. The numbers of the one that is found.
fn compare(lender: &mut Lender, job: &Job, known: Placement) -> Numbers {
    let placed = compare_with_plain(lender, job);
    let cost = placed.map(|numbers| numbers.cost);
    let local = improve(job, known).map(|(_, cost)| cost);
    assert!(
        cost.is_some() && cost <= local,
        "{cost:?} for {local:?} of\n{}",
        job.text().escape_ascii()
    );
    placed.unwrap_or_default()
}

/// Places a job as cheaply as the plain search, or not at all if that finds none.
fn compare_with_plain(lender: &mut Lender, job: &Job) -> Option<Numbers> {
    let text = job.text();
    let placed = lender.place(job);
    let placed = placed.unwrap_or_else(|fault| panic!("{fault} of\n{}", text.escape_ascii()));
    let cost = placed.map(|numbers| numbers.cost);
    let plain = cheapest(job).map(|placement| verdict(job, &placement).map(|plain| plain.cost));
    assert_eq!(cost.map(Ok), plain, "{}", text.escape_ascii());
    placed
}

#[test]
fn on_the_heaviest_jobs() {
    let mut random = Random::new(41);
    let mut lender = Lender::default();
    let mut place = |shape: Shape| {
        let job = legal::job(&mut random, &shape);
        let known = given_rows(&job);
        compare(&mut lender, &job, known);
    };
    for reordering in [1, 2] {
        let heavy = Shape {
            reordering,
            ..HEAVY
        };
        for tall in [0, 1, 8, 12, 24] {
            for most_width in [1, 2, 12] {
                place(Shape {
                    tall,
                    most_width,
                    ..heavy
                });
            }
        }
        place(Shape {
            rows: 1,
            tall: 0,
            ..heavy
        });
        place(Shape { cells: 24, ..heavy });
    }
    place(Shape {
        reordering: 0,
        ..HEAVY
    });
}

/// Cells are fixed at their given sites, so that the given rows stay a legal placement.
#[test]
fn on_heavy_jobs_with_fixed_cells() {
    let mut random = Random::new(44);
    let mut lender = Lender::default();
    for (tall, most_width) in [(0, 2), (8, 1), (12, 2), (24, 2), (24, 12)] {
        let shape = Shape {
            tall,
            most_width,
            ..HEAVY
        };
        for (of_single, of_tall) in [(5, 0), (0, 10), (5, 5), (8, 8), (10, 10)] {
            let mut job = legal::job(&mut random, &shape);
            for cell in &mut job.cells {
                let fixed_in_ten = if cell.is_tall() { of_tall } else { of_single };
                cell.fixed = random.chance(fixed_in_ten, 10);
            }
            for reordering in [1, 2] {
                job.reordering = reordering;
                let known = given_rows(&job);
                compare(&mut lender, &job, known);
            }
        }
    }
}

#[test]
fn on_every_mix() {
    let mut random = Random::new(42);
    let mut lender = Lender::default();
    let (mut compared, mut fixed, mut filled) = ([0; 3], 0, 0);
    while compared.iter().sum::<usize>() < 500 {
        let (job, known) = placements::job_with_legal_placement(&mut random);
        if verdict(&job, &known).is_ok() {
            fixed += usize::from(job.fixed_cells() > 0);
            filled += usize::from(job.weights.filled.is_some());
            compare(&mut lender, &job, known);
            compared[usize::from(job.reordering)] += 1;
        }
    }
    assert!(fixed > 130, "{fixed} have fixed cells");
    assert!(filled > 80, "{filled} weigh filled steps");
    assert!(compared.iter().all(|&jobs| jobs > 120), "{compared:?} by R");
}

/// Large jobs with R 2 (A6), dense and narrow so that many cells have room to pass each other.
#[test]
fn on_dense_jobs_with_reordering_by_two() {
    let mut random = Random::new(45);
    let mut lender = Lender::default();
    for _ in 0..200 {
        let cells = 16 + random.below(49);
        let shape = Shape {
            cells,
            tall: random.pick(&[0, 1, cells / 8, cells / 4, cells * 3 / 8]),
            early: random.below(cells),
            most_width: random.from_to(1, 3),
            displacement: random.from_to(1, 7),
            reordering: 2,
            gaps: random.pick(&[&[0], &[0, 0, 2], HEAVY.gaps]),
            ..HEAVY
        };
        let mut job = legal::job(&mut random, &shape);
        job.weights = jobs::weights(&mut random);
        let known = given_rows(&job);
        compare(&mut lender, &job, known);
    }
}

/// Large jobs whose filled steps have a weight of their own (A7), and whose given rows have gaps of two
/// and three sites.
#[test]
fn on_large_jobs_with_filled_steps() {
    let mut random = Random::new(46);
    let mut lender = Lender::default();
    // Placements with filled steps, and with steps at gap 0 beside them.
    let (mut filled, mut both) = (0, 0);
    for _ in 0..240 {
        let cells = 16 + random.below(49);
        let shape = Shape {
            cells,
            tall: random.pick(&[0, 1, cells / 8, cells / 4, cells * 3 / 8]),
            early: random.below(cells),
            most_width: random.pick(&[1, 2, 3, 12]),
            displacement: random.from_to(1, 7),
            reordering: random.from_to(0, MOST_REORDERING),
            gaps: random.pick(&[&[0, 0, 2], &[0, 2, 3], HEAVY.gaps]),
            ..HEAVY
        };
        let mut job = legal::job(&mut random, &shape);
        let weights = jobs::weights(&mut random);
        job.weights = jobs::with_filled(&mut random, weights);
        let known = given_rows(&job);
        let numbers = compare(&mut lender, &job, known);
        let touching = numbers.steps - numbers.filled_steps;
        filled += usize::from(numbers.filled_steps > 0);
        both += usize::from(numbers.filled_steps > 0 && touching > 0);
    }
    assert!(filled > 100 && both > 80, "{filled} {both}");
}

/// Most given rows have one empty site before a first cell or behind a last one, and keep all other
/// rules. Where cells have no room to move, nothing mends that.
#[test]
fn on_row_ends() {
    let mut random = Random::new(43);
    let mut lender = Lender::default();
    let (mut broken, mut none) = (0, 0);
    for _ in 0..300 {
        let rows = random.from_to(1, 2);
        let cells = 8 + random.below(57);
        let shape = Shape {
            rows,
            cells,
            tall: random.pick(&[0, cells / 8, cells / 4]) * usize::from(rows - 1),
            early: random.below(cells),
            most_width: random.pick(&[1, 2, 12]),
            displacement: random.pick(&[0, 1, 2, 7]),
            reordering: random.from_to(0, MOST_REORDERING),
            gaps: random.pick(&[&[0], HEAVY.gaps]),
            ends: random.pick(&[&[1], &[0, 1, 1]]),
            one_site_ends: true,
            ..HEAVY
        };
        let job = legal::job(&mut random, &shape);
        let given = verdict(&job, &given_rows(&job)).err();
        broken += usize::from(given.is_some_and(|given| given.rule == 8));
        none += usize::from(compare_with_plain(&mut lender, &job).is_none());
    }
    assert!(broken > 200, "{broken} given rows break rule 8");
    assert!((50..200).contains(&none), "{none} have no placement");
}
