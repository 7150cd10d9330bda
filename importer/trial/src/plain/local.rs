//! A simple local search: what a placement comes to if cells are changed one or two at a time for
//! as long as that makes it cheaper.

use super::job::Job;
use super::placement::{Placement, Pose};
use super::scorer::verdict;

/// A legal placement that no change of one cell, and no exchange of two that follow each other in
/// the file, makes cheaper; and its cost. None if the one to start from is not legal.
pub fn improve(job: &Job, start: Placement) -> Option<(Placement, u32)> {
    let mut cost = verdict(job, &start).ok()?.cost;
    let mut placement = start;
    loop {
        let before = cost;
        for cell in 0..placement.len() {
            for candidate in candidates(job, &placement, cell) {
                let scored = verdict(job, &candidate);
                if let Some(numbers) = scored.ok().filter(|numbers| numbers.cost < cost) {
                    cost = numbers.cost;
                    placement = candidate;
                }
            }
        }
        if cost == before {
            return Some((placement, cost));
        }
    }
}

/// The placement with the cell in each of its other poses, or exchanged with the next one.
fn candidates(job: &Job, placement: &Placement, cell: usize) -> Vec<Placement> {
    let of_job = &job.cells[cell];
    let mut candidates = Vec::new();
    let limit = job.displacement_of(of_job);
    let low = of_job.given.saturating_sub(limit);
    for site in low..=of_job.given + limit {
        for (layout, mark) in [(0, 0), (0, 1), (1, 0), (1, 1)] {
            let mut candidate = placement.clone();
            candidate[cell] = Pose { site, layout, mark };
            candidates.push(candidate);
        }
    }
    if let Some(next) = job.cells.get(cell + 1) {
        let mut candidate = placement.clone();
        let end = placement[cell + 1].end(next);
        let width = placement[cell].layout_of(of_job).width;
        candidate[cell].site = end.saturating_sub(width);
        candidate[cell + 1].site = placement[cell].site;
        candidates.push(candidate);
    }
    candidates
}
