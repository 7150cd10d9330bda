//! The most staples of a placement of their kind (A10), by trying them all.
//!
//! Sites that break rules 2 and 3 by themselves are not tried, nor those left of where earlier cells of
//! the row end; every placement that is left is judged and counted whole.

use super::job::{Cell, Job};
use super::placement::{Placement, Pose};
use super::staples::{is_plain, staples};

/// The most staples; none if there is no placement of the kind.
pub fn most_by_trying_all(job: &Job) -> Option<usize> {
    let mut most = None;
    try_next(job, &mut Vec::new(), &mut most);
    most
}

/// Tries all sites of the next cell.
fn try_next(job: &Job, placement: &mut Placement, most: &mut Option<usize>) {
    let Some(cell) = job.cells.get(placement.len()) else {
        if is_plain(job, placement) {
            *most = (*most).max(Some(staples(job, placement)));
        }
        return;
    };
    let limit = job.displacement_of(cell);
    for site in cell.given.saturating_sub(limit)..=cell.given + limit {
        let pose = Pose {
            site,
            ..Pose::default()
        };
        if pose.end(cell) <= job.sites && site >= end_so_far(job, placement, cell) {
            placement.push(pose);
            try_next(job, placement, most);
            placement.pop();
        }
    }
}

/// Where the earlier cells of a cell's row end.
fn end_so_far(job: &Job, placement: &[Pose], cell: &Cell) -> u16 {
    let earlier = job.cells.iter().zip(placement);
    let in_row = earlier.filter(|(other, _)| other.row == cell.row);
    let ends = in_row.map(|(other, pose)| pose.end(other));
    ends.max().unwrap_or(0)
}
