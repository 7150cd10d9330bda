//! Power staples (A10): the sites that no cell of either row covers, and a placement of its kind with
//! as many of them as any.

use super::job::{Cell, Job};
use super::placement::{Placement, Pose};
use super::rules::legal_rows;
use super::staples_search::Search;

/// The staples of a placement.
pub fn staples(job: &Job, placement: &[Pose]) -> usize {
    let covers = |site: u16, cell: &Cell, pose: &Pose| (pose.site..pose.end(cell)).contains(&site);
    let is_empty = |site: &u16| {
        let mut cells = job.cells.iter().zip(placement);
        !cells.any(|(cell, pose)| covers(*site, cell, pose))
    };
    (0..job.sites).filter(is_empty).count()
}

/// Whether a job may be asked for staples: it has two rows and no tall cell.
pub fn is_stapleable(job: &Job) -> bool {
    job.rows == 2 && job.tall_cells() == 0
}

/// Whether a placement is of the kind: legal with R taken as 0, each cell in layout 0, unmirrored.
pub fn is_plain(job: &Job, placement: &[Pose]) -> bool {
    let in_file_order = Job {
        reordering: 0,
        ..job.clone()
    };
    let is_whole = placement.len() == job.cells.len();
    let unchanged = |pose: &Pose| pose.layout == 0 && pose.mark == 0;
    is_whole && placement.iter().all(unchanged) && legal_rows(&in_file_order, placement).is_ok()
}

/// A placement of the kind with the most staples, and how many; none if there is none of the kind.
/// The job must have two rows and no tall cell.
pub fn most(job: &Job) -> Option<(Placement, usize)> {
    assert!(is_stapleable(job), "it has one row or a tall cell");
    let search = Search::of(job);
    let covered = search.least_covered()?;
    let placement = search.placement(job).expect("a count stands for a way");
    Some((placement, usize::from(job.sites - covered)))
}
