//! The cells of a row in file order, as the search needs them.
//!
//! A pose is numbered 4 e + 2 layout + mark, where site = given + e - D; its variant is the last
//! two bits.

use super::super::gap::{is_charged, is_filled, is_forbidden};
use super::super::job::{Cell, Job};
use super::super::placement::Pose;
use super::{Charge, Step, NONE};

pub const POSES: usize = 60;
pub const VARIANTS: usize = 4;

/// A row's cells in file order.
pub struct Row {
    pub lines: Vec<Line>,
    /// The places of tall cells in `lines`.
    pub tall: Vec<usize>,
}

/// One cell as it stands in one row.
pub struct Line {
    /// Its place in the file.
    pub cell: usize,
    pub tall: bool,
    /// Its leftmost site if nothing but D limits it; may be below 0.
    pub first_site: i32,
    widths: [i32; 2],
    /// Where its row ends.
    row_end: i32,
    /// The poses that are offered, in rising order.
    pub poses: Vec<usize>,
    /// What each pose charges by itself: shift, mirroring, layout; [`NONE`] if it is not offered.
    pub own: [Charge; POSES],
    /// Heights P and N at either edge, by variant.
    left: [[u16; 2]; VARIANTS],
    right: [[u16; 2]; VARIANTS],
}

impl Row {
    pub fn of(job: &Job, row: usize) -> Row {
        let cells = job.cells.iter().enumerate();
        let in_row = cells.filter(|(_, cell)| cell.rows().contains(&row));
        let lines: Vec<Line> = in_row
            .map(|(at, cell)| Line::of(job, at, cell, row))
            .collect();
        let tall = (0..lines.len()).filter(|&place| lines[place].tall);
        Row {
            tall: tall.collect(),
            lines,
        }
    }
}

impl Line {
    fn of(job: &Job, at: usize, cell: &Cell, row: usize) -> Line {
        let mut line = Line {
            cell: at,
            tall: cell.is_tall(),
            first_site: i32::from(cell.given) - i32::from(job.displacement),
            widths: [0, 1].map(|layout: usize| cell.layout[layout].width.into()),
            row_end: job.sites.into(),
            poses: Vec::new(),
            own: [NONE; POSES],
            left: [[0; 2]; VARIANTS],
            right: [[0; 2]; VARIANTS],
        };
        for variant in 0..VARIANTS {
            let [left_p, left_n, right_p, right_n] = cell.layout[variant >> 1].heights[row];
            let edges = [[left_p, left_n], [right_p, right_n]];
            line.left[variant] = edges[variant & 1];
            line.right[variant] = edges[1 - (variant & 1)];
        }
        for pose in 0..VARIANTS * (2 * usize::from(job.displacement) + 1) {
            if let Some(own) = line.own_charge(job, cell, pose) {
                line.own[pose] = own;
                line.poses.push(pose);
            }
        }
        line
    }

    /// What a pose charges by itself, if it is offered.
    fn own_charge(&self, job: &Job, cell: &Cell, pose: usize) -> Option<Charge> {
        let (layout, mark) = (pose >> 1 & 1, pose & 1);
        let site = self.site(pose);
        let shifted = (site - i32::from(cell.given)).abs();
        let offered = layout < usize::from(cell.offered_layouts())
            && mark <= usize::from(cell.highest_mark())
            && shifted <= i32::from(job.displacement_of(cell))
            && site >= 0
            && self.end(pose) <= i32::from(job.sites);
        let weights = job.weights;
        let charge = i32::from(weights.shift) * shifted
            + i32::from(weights.mirror) * mark as i32
            + i32::from(weights.swap) * layout as i32;
        offered.then_some(charge as Charge)
    }

    pub fn site(&self, pose: usize) -> i32 {
        self.first_site + (pose / VARIANTS) as i32
    }

    /// The first site right of the cell.
    pub fn end(&self, pose: usize) -> i32 {
        self.site(pose) + self.widths[pose >> 1 & 1]
    }

    /// Whether the cell may be its row's first: not behind just one empty site.
    pub fn may_open(&self, pose: usize) -> bool {
        !is_forbidden(self.site(pose))
    }

    /// Whether the cell may be its row's last: not before just one empty site.
    pub fn may_close(&self, pose: usize) -> bool {
        !is_forbidden(self.row_end - self.end(pose))
    }

    /// The pose with this number.
    pub fn pose(&self, pose: usize) -> Pose {
        Pose {
            site: self.site(pose) as u16,
            layout: (pose >> 1 & 1) as u16,
            mark: (pose & 1) as u16,
        }
    }

    /// What steps between this cell and its right neighbour charge, by their variants.
    pub fn steps(&self, right: &Line, step: Charge) -> [[Charge; VARIANTS]; VARIANTS] {
        let mut charges = [[0.0; VARIANTS]; VARIANTS];
        for (here, charges) in self.right.iter().zip(&mut charges) {
            for (there, charge) in right.left.iter().zip(charges) {
                *charge = step * steps(here, there);
            }
        }
        charges
    }

    /// What stands between this cell and its right neighbour charges; none if the gap is not
    /// allowed.
    pub fn between(
        &self,
        pose: usize,
        right: &Line,
        right_pose: usize,
        step: Step,
    ) -> Option<Charge> {
        let gap = right.site(right_pose) - self.end(pose);
        if gap < 0 || is_forbidden(gap) {
            return None;
        }
        if !is_charged(gap) {
            return Some(0.0);
        }
        let here = &self.right[pose % VARIANTS];
        let there = &right.left[right_pose % VARIANTS];
        let step = if is_filled(gap) {
            step.filled
        } else {
            step.touching
        };
        Some(step * steps(here, there))
    }
}

/// How many of the heights P and N differ between two edges.
fn steps(here: &[u16; 2], there: &[u16; 2]) -> Charge {
    (u8::from(here[0] != there[0]) + u8::from(here[1] != there[1])).into()
}
