//! Placements that break one rule by one cell, by two, or by many.

use super::{legal, placements, Random};
use crate::plain::job::{Job, MOST_REORDERING, MOST_TALL};
use crate::plain::placement::Placement;

/// A job, and a placement of it that breaks a rule from 1 to 8 at some cells or at many, if the job
/// has the cells for it. Now and then an earlier rule is broken too.
pub fn job_with_broken_rule(random: &mut Random, rule: u32) -> (Job, Placement) {
    match rule {
        5 => one_site_gaps(random),
        6 => order_moved(random),
        7 => tall_order_changed(random),
        8 => one_site_ends(random),
        _ => broken_often(random, rule),
    }
}

/// A legal placement, and then one cell after another that breaks the rule.
fn broken_often(random: &mut Random, rule: u32) -> (Job, Placement) {
    let (job, mut placement) = placements::job_with_legal_placement(random);
    let times = random.pick(&[1, 1, 2, 3, 8, 64]);
    for _ in 0..times {
        placements::break_rule(random, rule, &job, &mut placement);
    }
    (job, placement)
}

/// Neighbours that stand one site apart in few places or in many.
fn one_site_gaps(random: &mut Random) -> (Job, Placement) {
    let most = random.pick(&[2, 4, 8, 64]);
    let shape = legal::Shape {
        gaps: random.pick(&[&[1], &[0, 1], &[1, 2, 3], &[0, 0, 2, 3, 4, 1]]),
        one_site_gaps: true,
        ..placements::shape_of(random, most)
    };
    let fixed_in_ten = random.pick(&[0, 0, 3]);
    placements::job_with_placement(random, &shape, fixed_in_ten)
}

/// Rows that end one site after their last cell or begin one before their first: few or, where both
/// rows are equally long, all of them.
fn one_site_ends(random: &mut Random) -> (Job, Placement) {
    if random.chance(1, 2) {
        return placements::job_with_row_ends(random);
    }
    let shape = narrow(random);
    let shape = legal::Shape {
        rows: 2,
        tall: 0,
        ends: random.pick(&[&[1], &[0, 1, 2]]),
        one_site_ends: true,
        ..shape
    };
    placements::job_with_placement(random, &shape, 0)
}

/// A shape of cells of one site that touch and may be shifted far.
fn narrow(random: &mut Random) -> legal::Shape {
    let most = random.pick(&[3, 6, 16, 64]);
    legal::Shape {
        most_width: 1,
        displacement: 7,
        gaps: &[0],
        ..placements::shape_of(random, most)
    }
}

/// Cells that have left their places, among tall ones too.
fn order_moved(random: &mut Random) -> (Job, Placement) {
    let shape = narrow(random);
    let tall = random.pick(&[0, 0, shape.tall]);
    exchanged(random, &legal::Shape { tall, ..shape }, 3)
}

/// Tall cells at most R apart change places: that breaks no other rule.
fn tall_order_changed(random: &mut Random) -> (Job, Placement) {
    let shape = narrow(random);
    let shape = legal::Shape {
        rows: 2,
        tall: shape.cells.min(MOST_TALL),
        reordering: random.from_to(1, MOST_REORDERING),
        ..shape
    };
    exchanged(random, &shape, shape.reordering.into())
}

/// A placement in which cells have changed places, few or many: each with one that follows it in
/// the file by at most so much, or with all up to that one, which moves none of them as far.
fn exchanged(random: &mut Random, shape: &legal::Shape, furthest: usize) -> (Job, Placement) {
    let (job, mut placement) = placements::job_with_placement(random, shape, 0);
    let apart = random.pick(&[1, 1, 3, 20]);
    let mut at = random.below(apart);
    while at < placement.len() {
        let distance = 1 + random.below(furthest);
        let nearest = random.pick(&[1, distance]);
        for other in nearest..=distance {
            placements::exchange(&job, &mut placement, at, at + other);
        }
        at += distance + 1 + random.below(apart);
    }
    (job, placement)
}
