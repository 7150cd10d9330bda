//! Small jobs, for which all placements can be tried.

use super::{jobs, legal, placements, Random};
use crate::plain::job::{Cell, Job, Weights, MOST_REORDERING, TALL};

/// The most placements, legal or not, that a small job has.
const MOST_PLACEMENTS: usize = 1_000_000;

/// A job of 0 to 6 cells with D from 0 to 3: rows are tight, and weights are zero or large as
/// often as not.
pub fn job(random: &mut Random) -> Job {
    let rows = random.from_to(1, 2);
    let most_width = random.pick(&[1, 2, 3, 5]);
    let most_height = random.pick(&[1, 2, 3]);
    let mut job = Job {
        rows,
        displacement: random.from_to(0, 3),
        reordering: random.from_to(0, MOST_REORDERING),
        weights: jobs::weights(random),
        ..Job::default()
    };
    let fixed_in_ten = jobs::fixed_in_ten(random);
    let mut highest = [0; 2];
    let mut tries = 1;
    for _ in 0..random.below(7) {
        let row = if rows == 1 {
            0
        } else {
            random.from_to(0, TALL)
        };
        let mut cell = jobs::cell(random, row, most_width, most_height);
        cell.fixed = random.chance(fixed_in_ten, 10);
        tries *= poses(&job, &cell);
        if tries > MOST_PLACEMENTS {
            break;
        }
        let spare = random.pick(&[0, 1, 3]);
        let step = random.from_to(0, cell.layout[0].width + spare);
        cell.given = jobs::next_given(&mut highest, &cell, step);
        job.cells.push(cell);
    }
    let room = random.from_to(1, most_width + 3);
    job.sites = highest[0].max(highest[1]) + room;
    job
}

/// A job of 3 to 7 cells of widths 1 and 2 with D from 1 to 3, on rows with little room: cells may
/// pass each other, few may be changed otherwise, and steps weigh more than shifts.
pub fn job_to_reorder(random: &mut Random) -> Job {
    let rows = random.from_to(1, 2);
    let most_width = random.from_to(1, 2);
    let mut job = Job {
        rows,
        displacement: random.from_to(1, 3),
        reordering: random.from_to(0, MOST_REORDERING),
        weights: Weights {
            step: random.pick(&[10, 1000]),
            shift: random.pick(&[0, 1, 3]),
            ..jobs::weights(random)
        },
        ..Job::default()
    };
    let tall_in_ten = random.pick(&[0, 2, 5]);
    let mut highest = [0; 2];
    let mut tries = 1;
    for _ in 0..3 + random.below(5) {
        let tall = rows == 2 && random.chance(tall_in_ten, 10);
        let row = if tall {
            TALL
        } else {
            random.from_to(0, rows - 1)
        };
        let layouts = random.pick(&[1, 1, 1, 2]);
        let mut cell = jobs::cell_with_layouts(random, row, layouts, most_width, 3);
        cell.mirrorable = random.chance(1, 4);
        tries *= poses(&job, &cell);
        if tries > MOST_PLACEMENTS {
            break;
        }
        cell.given = jobs::next_given(&mut highest, &cell, random.pick(&[0, 1, 1, 2]));
        job.cells.push(cell);
    }
    job.sites = highest[0].max(highest[1]) + random.from_to(1, most_width + 2);
    job
}

/// A job of 1 to 5 cells of which a placement is known that is legal but for rule 8.
pub fn job_with_row_ends(random: &mut Random) -> Job {
    drawn_small(random, |random| placements::job_with_row_ends(random).0)
}

/// A job of 1 to 8 cells of which some are fixed, with D from 0 to 7: mostly one of which a legal
/// placement is known, else one with D to 3 of which none is.
pub fn job_with_fixed_cells(random: &mut Random) -> Job {
    if random.chance(2, 3) {
        return drawn_small(random, |random| placements::job_with_fixed_cells(random).0);
    }
    loop {
        let job = job(random);
        if job.fixed_cells() > 0 {
            return job;
        }
    }
}

/// A job of 3 to 5 cells of which a placement is known that leaves gaps of two and three sites.
pub fn job_with_gaps(random: &mut Random) -> Job {
    drawn_small(random, |random| {
        let shape = legal::Shape {
            cells: 3 + random.below(3),
            most_height: random.from_to(2, 3),
            displacement: random.from_to(1, 3),
            gaps: &[0, 2, 2, 3, 3, 4],
            ..placements::shape_of(random, 3)
        };
        placements::job_with_placement(random, &shape, 1).0
    })
}

/// A job of one of these kinds whose filled steps have a weight of their own (A7).
pub fn job_with_filled_steps(random: &mut Random) -> Job {
    let kinds: [fn(&mut Random) -> Job; 6] = [
        job,
        job_to_reorder,
        job_with_row_ends,
        job_with_fixed_cells,
        job_with_gaps,
        job_with_gaps,
    ];
    let mut job = random.pick(&kinds)(random);
    job.weights = jobs::with_filled(random, job.weights);
    job
}

/// The first job drawn that has few enough placements.
fn drawn_small(random: &mut Random, draw: impl Fn(&mut Random) -> Job) -> Job {
    loop {
        let job = draw(random);
        let tries: usize = job.cells.iter().map(|cell| poses(&job, cell)).product();
        if tries <= MOST_PLACEMENTS {
            return job;
        }
    }
}

/// How many poses rules 1 and 3 leave to a cell at most.
fn poses(job: &Job, cell: &Cell) -> usize {
    let choices = usize::from(cell.offered_layouts() * (1 + cell.highest_mark()));
    choices * usize::from(2 * job.displacement_of(cell) + 1)
}
