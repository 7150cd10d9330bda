//! Jobs of two rows without tall cells, of which staples may be asked (A10).

use super::legal::Shape;
use super::{jobs, placements, Random};
use crate::plain::job::{Job, MOST_REORDERING};

/// The most ways to give each cell of a small job a site within D of its given one.
const MOST_PLACEMENTS: usize = 120_000;

/// A job of 0 to 6 cells for which all placements of the kind can be tried; as often as not none is
/// known.
pub fn small_job(random: &mut Random) -> Job {
    loop {
        let job = match random.chance(1, 2) {
            true => small_job_with_placement(random),
            false => any_job(random),
        };
        let sites = |cell| usize::from(2 * job.displacement_of(cell) + 1);
        if job.cells.iter().map(sites).product::<usize>() <= MOST_PLACEMENTS {
            return job;
        }
    }
}

/// A job of at most 64 cells that mostly has a placement of the kind.
pub fn large_job(random: &mut Random) -> Job {
    let most = random.pick(&[16, 32, 64, 64]);
    let shape = placements::shape_of(random, most);
    job_with_placement(random, &shape)
}

fn small_job_with_placement(random: &mut Random) -> Job {
    let any = placements::shape_of(random, 6);
    let shape = Shape {
        most_width: random.pick(&[any.most_width, any.most_width, 40]),
        ..any
    };
    job_with_placement(random, &shape)
}

/// A job of this shape, but in two rows and without tall cells. Its given rows were moved from a
/// placement of the kind, or from one that is so but for rule 8.
fn job_with_placement(random: &mut Random, shape: &Shape) -> Job {
    let one_site_ends = random.chance(1, 3);
    let shape = Shape {
        rows: 2,
        tall: 0,
        ends: if one_site_ends {
            &[0, 1, 2]
        } else {
            &[0, 2, 5]
        },
        one_site_ends,
        ..*shape
    };
    let fixed_in_ten = jobs::fixed_in_ten(random);
    placements::job_with_placement(random, &shape, fixed_in_ten).0
}

/// A job of 0 to 6 cells with D from 0 to 3, narrow or wide, in both rows or in one.
fn any_job(random: &mut Random) -> Job {
    let mut job = Job {
        rows: 2,
        displacement: random.from_to(0, 3),
        reordering: random.from_to(0, MOST_REORDERING),
        weights: jobs::weights(random),
        ..Job::default()
    };
    let most_width = random.pick(&[1, 2, 3, 5, 64]);
    let [low_row, high_row] = random.pick(&[[0, 1], [0, 1], [0, 1], [0, 0], [1, 1]]);
    let fixed_in_ten = jobs::fixed_in_ten(random);
    let mut highest = [0; 2];
    for _ in 0..random.below(7) {
        let row = random.from_to(low_row, high_row);
        let mut cell = jobs::cell(random, row, most_width, 3);
        cell.fixed = random.chance(fixed_in_ten, 10);
        let spare = random.pick(&[0, 1, 3]);
        let step = random.from_to(0, cell.layout[0].width + spare);
        cell.given = jobs::next_given(&mut highest, &cell, step);
        job.cells.push(cell);
    }
    let room = random.from_to(1, most_width + 3);
    job.sites = match random.chance(1, 10) {
        true => 1,
        false => highest[0].max(highest[1]) + room,
    };
    job
}
