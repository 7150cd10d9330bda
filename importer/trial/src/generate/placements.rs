//! Placements of a job: legal ones, nearly legal ones, and wild ones.

use super::{jobs, legal, Random};
use crate::plain::job::{Cell, Job, MOST_REORDERING};
use crate::plain::placement::{given_rows, Placement, Pose};

/// A job and a legal placement of it that is not its given rows.
pub fn job_with_legal_placement(random: &mut Random) -> (Job, Placement) {
    let shape = any_shape(random);
    let fixed_in_ten = jobs::fixed_in_ten(random);
    job_with_placement(random, &shape, fixed_in_ten)
}

/// A job and a placement of it that is legal but for rule 8: there are few cells, and often one
/// empty site before a row's first or behind its last.
pub fn job_with_row_ends(random: &mut Random) -> (Job, Placement) {
    let most = random.pick(&[1, 2, 3, 5]);
    let any = shape_of(random, most);
    let shape = legal::Shape {
        tall: random.pick(&[any.tall, any.tall.min(1)]),
        most_width: random.pick(&[1, 1, 2, 4, 12]),
        gaps: random.pick(&[&[0], &[0], any.gaps]),
        ends: &[0, 0, 1, 1, 2, 3],
        one_site_ends: true,
        ..any
    };
    let fixed_in_ten = jobs::fixed_in_ten(random);
    job_with_placement(random, &shape, fixed_in_ten)
}

/// A job with few cells of which some are fixed, and a legal placement of it.
pub fn job_with_fixed_cells(random: &mut Random) -> (Job, Placement) {
    let most = random.pick(&[3, 5, 6, 8]);
    let shape = legal::Shape {
        displacement: random.from_to(0, 7),
        ..shape_of(random, most)
    };
    let fixed_in_ten = random.pick(&[2, 4, 4, 6, 6, 8, 9]);
    loop {
        let (job, placement) = job_with_placement(random, &shape, fixed_in_ten);
        if job.fixed_cells() > 0 {
            return (job, placement);
        }
    }
}

/// A job whose given rows were moved by at most D, but for fixed cells, and the placement that they
/// were.
pub(super) fn job_with_placement(
    random: &mut Random,
    shape: &legal::Shape,
    fixed_in_ten: usize,
) -> (Job, Placement) {
    let mut job = legal::job(random, shape);
    let placement = given_rows(&job);
    job.weights = jobs::weights(random);
    for cell in &mut job.cells {
        cell.fixed = random.chance(fixed_in_ten, 10);
        cell.mirrorable = random.chance(2, 3);
        cell.layouts = random.from_to(1, 2);
    }
    move_given_sites(random, &mut job);
    (job, placement)
}

fn any_shape(random: &mut Random) -> legal::Shape {
    let most = random.pick(&[2, 4, 8, 8, 16, 64]);
    shape_of(random, most)
}

/// A shape of at most so many cells.
pub(super) fn shape_of(random: &mut Random, most: usize) -> legal::Shape {
    let cells = 1 + random.below(most);
    let rows = random.from_to(1, 2);
    let most_tall = if rows == 2 { cells.min(24) } else { 0 };
    legal::Shape {
        rows,
        cells,
        tall: random.pick(&[0, most_tall / 2, most_tall]),
        early: random.below(cells),
        most_width: random.pick(&[1, 2, 4, 12]),
        most_height: random.pick(&[1, 2, 3, 15]),
        displacement: random.pick(&[0, 1, 2, 3, 4, 7, 7]),
        reordering: random.from_to(0, MOST_REORDERING),
        gaps: random.pick(&[&[0], &[0, 2], &[0, 0, 2, 3, 4, 5], &[2, 3, 4, 9]]),
        ends: random.pick(&[&[0], &[0, 2, 3, 9]]),
        one_site_ends: false,
        one_site_gaps: false,
    }
}

/// Moves given sites by at most D, those of fixed cells not at all, so that they still do not fall
/// in a row.
fn move_given_sites(random: &mut Random, job: &mut Job) {
    let limit = random.pick(&[0, job.displacement / 2, job.displacement]);
    let ceilings = ceilings(job);
    let mut highest = [0; 2];
    for (cell, ceiling) in job.cells.iter_mut().zip(ceilings) {
        let rows = &mut highest[cell.rows()];
        let floor = rows.iter().copied().max().unwrap_or(0);
        if !cell.fixed {
            let low = cell.given.saturating_sub(limit).max(floor);
            let high = (cell.given + limit).min(ceiling).max(low);
            cell.given = random.from_to(low, high);
        }
        rows.fill(cell.given);
    }
}

/// How far right each cell may be given, so that no fixed cell behind it, nor any cell between
/// them, falls.
fn ceilings(job: &Job) -> Vec<u16> {
    let mut lowest = [1023; 2];
    let ceiling = |cell: &Cell| {
        let rows = &mut lowest[cell.rows()];
        let behind = rows.iter().copied().min().unwrap_or(1023);
        let ceiling = if cell.fixed { cell.given } else { behind };
        rows.fill(ceiling);
        ceiling
    };
    let mut ceilings: Vec<u16> = job.cells.iter().rev().map(ceiling).collect();
    ceilings.reverse();
    ceilings
}

/// Changes a placement a little: one cell's site, mark or layout, or two cells' places.
pub fn wander(random: &mut Random, job: &Job, placement: &mut [Pose]) {
    if placement.is_empty() {
        return;
    }
    let at = random.below(placement.len());
    let pose = &mut placement[at];
    match random.below(6) {
        0 => pose.site += 1,
        1 => pose.site = pose.site.saturating_sub(1),
        2 => pose.mark = 1 - pose.mark.min(1),
        3 => pose.layout = 1 - pose.layout.min(1),
        _ => {
            let distance = 1 + random.below(2);
            exchange(job, placement, at, at + distance);
        }
    }
}

/// Lets two cells change places, over the sites that they took up.
pub(super) fn exchange(job: &Job, placement: &mut [Pose], left: usize, right: usize) {
    if right >= placement.len() || placement[left].site > placement[right].site {
        return;
    }
    let end = placement[right].site + width(job, placement, right);
    placement[right].site = placement[left].site;
    placement[left].site = end.saturating_sub(width(job, placement, left));
}

/// The width of a cell as it is placed; in layout 1 if it has no such layout.
fn width(job: &Job, placement: &[Pose], at: usize) -> u16 {
    let layout = usize::from(placement[at].layout.min(1));
    job.cells[at].layout[layout].width
}

/// Breaks a rule from 1 to 8 at some cell, if the job has the cells for it.
pub fn break_rule(random: &mut Random, rule: u32, job: &Job, placement: &mut [Pose]) {
    if placement.is_empty() {
        return;
    }
    let at = cell_to_break(random, rule, job);
    let cell = &job.cells[at];
    let site_of_another = placement[random.below(placement.len())].site;
    let pose = &mut placement[at];
    match rule {
        1 if random.chance(1, 2) => pose.layout = random.pick(&[cell.offered_layouts(), 2, 9999]),
        1 => pose.mark = random.pick(&[cell.highest_mark() + 1, 2, 9999]),
        2 => pose.site = random.pick(&[job.sites - 1, job.sites, job.sites + 1, 9999]),
        3 => pose.site = cell.given + job.displacement_of(cell) + random.from_to(0, 1),
        4 => pose.site = site_of_another,
        5 => pose.site += 1,
        6 => exchange(job, placement, at, at + 1 + random.below(3)),
        7 => exchange_tall(random, job, placement),
        _ => leave_one_site(random, job, placement, cell.rows().start),
    }
}

/// Any cell for rules 1 and 3; for others one that is not fixed, if there is one: a fixed cell that
/// moves breaks rule 3 before them.
fn cell_to_break(random: &mut Random, rule: u32, job: &Job) -> usize {
    let any: Vec<usize> = (0..job.cells.len()).collect();
    let free = any.iter().copied().filter(|&at| !job.cells[at].fixed);
    let free: Vec<usize> = free.collect();
    match rule {
        1 | 3 => random.pick(&any),
        _ if free.is_empty() => random.pick(&any),
        _ => random.pick(&free),
    }
}

/// Leaves one empty site before the first cell of a row that holds one, or behind its last: that
/// cell moves alone, or all cells with it.
fn leave_one_site(random: &mut Random, job: &Job, placement: &mut [Pose], row: usize) {
    let in_row = (0..placement.len()).filter(|&at| job.cells[at].rows().contains(&row));
    let site = |at: &usize| placement[*at].site;
    let (moved, wanted) = if random.chance(1, 2) {
        (in_row.min_by_key(site), 1)
    } else {
        let last = in_row.max_by_key(site);
        let width = last.map_or(0, |last| width(job, placement, last));
        (last, job.sites.saturating_sub(width + 1))
    };
    let Some(moved) = moved else { return };
    let shift = i32::from(wanted) - i32::from(placement[moved].site);
    let alone = random.chance(1, 2);
    for (at, pose) in placement.iter_mut().enumerate() {
        if at == moved || !alone {
            pose.site = (i32::from(pose.site) + shift).clamp(0, 9999) as u16;
        }
    }
}

/// Lets two tall cells that are not fixed change places.
fn exchange_tall(random: &mut Random, job: &Job, placement: &mut [Pose]) {
    let tall: Vec<usize> = (0..placement.len())
        .filter(|&at| job.cells[at].is_tall() && !job.cells[at].fixed)
        .collect();
    if tall.len() >= 2 {
        let first = random.below(tall.len() - 1);
        exchange(job, placement, tall[first], tall[first + 1]);
    }
}

/// A placement whose values have nothing to do with the job.
pub fn wild(random: &mut Random, job: &Job) -> Placement {
    let sites = [0, 1, 5, job.sites, 1023, 9999];
    let most = random.pick(&sites);
    let pose = |_| Pose {
        site: random.from_to(0, most),
        layout: random.pick(&[0, 0, 0, 1, 2, 9999]),
        mark: random.pick(&[0, 0, 0, 1, 2, 9999]),
    };
    job.cells.iter().map(pose).collect()
}
