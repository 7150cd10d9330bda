//! The least cost of a legal placement, by trying them all.
//!
//! Poses that break rules 1 to 3 by themselves are not tried, nor are cells on top of earlier
//! ones, nor what already costs too much, by the cells themselves and the steps where they touch;
//! every placement that is left is scored whole.

use super::cost::{numbers, steps_between};
use super::job::{Cell, Job};
use super::order::Order;
use super::placement::{Placement, Pose};
use super::rules::Broken;
use super::scorer::verdict;

/// What was found by trying all placements.
#[derive(Clone, Copy, Debug, Default, PartialEq, Eq)]
pub struct Least {
    /// The least cost, if there is a legal placement.
    pub cost: Option<u32>,
    /// The least cost below that of a placement that breaks rule 8 alone, if there is one.
    pub without_rule_8: Option<u32>,
}

pub fn least(job: &Job) -> Least {
    let offered = job.cells.iter().map(|cell| offered(job, cell)).collect();
    let mut search = Search {
        job,
        offered,
        placement: Vec::new(),
        least: Least::default(),
    };
    search.place_next(0);
    let Least {
        cost,
        without_rule_8,
    } = search.least;
    let cheaper = |barred: &u32| cost.is_none_or(|cost| *barred < cost);
    Least {
        cost,
        without_rule_8: without_rule_8.filter(cheaper),
    }
}

/// A pose, and what it costs by itself.
#[derive(Clone, Copy)]
struct Offer {
    pose: Pose,
    cost: u32,
}

/// The poses of a cell that keep rules 1 to 3, the cheapest first.
fn offered(job: &Job, cell: &Cell) -> Vec<Offer> {
    let mut offered = Vec::new();
    let limit = job.displacement_of(cell);
    let low = cell.given.saturating_sub(limit);
    for site in low..=cell.given + limit {
        for layout in 0..cell.offered_layouts() {
            for mark in 0..=cell.highest_mark() {
                let pose = Pose { site, layout, mark };
                if pose.end(cell) <= job.sites {
                    let cost = own_cost(job, cell, &pose);
                    offered.push(Offer { pose, cost });
                }
            }
        }
    }
    offered.sort_by_key(|offer| offer.cost);
    offered
}

fn own_cost(job: &Job, cell: &Cell, pose: &Pose) -> u32 {
    let weights = job.weights;
    u32::from(weights.shift) * u32::from(pose.site.abs_diff(cell.given))
        + u32::from(weights.mirror) * u32::from(pose.mark)
        + u32::from(weights.swap) * u32::from(pose.layout)
}

struct Search<'a> {
    job: &'a Job,
    offered: Vec<Vec<Offer>>,
    /// The poses of the cells tried so far, in file order.
    placement: Placement,
    least: Least,
}

impl Search<'_> {
    /// Tries all poses of the next cell, where the earlier ones already cost so much.
    fn place_next(&mut self, cost: u32) {
        let cell = self.placement.len();
        if self.least.cost.is_some_and(|least| cost >= least) {
            return;
        }
        if cell == self.job.cells.len() {
            self.score();
            return;
        }
        for at in 0..self.offered[cell].len() {
            let offer = self.offered[cell][at];
            let cost = cost + offer.cost;
            if self.least.cost.is_some_and(|least| cost >= least) {
                return;
            }
            if !self.overlaps(cell, &offer.pose) {
                let steps = self.touching_steps(cell, &offer.pose);
                self.placement.push(offer.pose);
                self.place_next(cost + u32::from(self.job.weights.step) * steps);
                self.placement.pop();
            }
        }
    }

    /// Steps between a cell in a pose and earlier cells that it touches: nothing comes between them.
    fn touching_steps(&self, cell: usize, pose: &Pose) -> u32 {
        let placed = (&self.job.cells[cell], pose);
        let mut steps = 0;
        for other in self.job.cells.iter().zip(&self.placement) {
            let rows = other.0.rows().filter(|row| placed.0.rows().contains(row));
            for row in rows {
                if other.1.end(other.0) == pose.site {
                    steps += steps_between(other, placed, row);
                } else if pose.end(placed.0) == other.1.site {
                    steps += steps_between(placed, other, row);
                }
            }
        }
        steps
    }

    /// Scores a whole placement.
    fn score(&mut self) {
        let (least, cost) = match verdict(self.job, &self.placement) {
            Ok(numbers) => (&mut self.least.cost, numbers.cost),
            Err(Broken { rule: 8, .. }) => {
                let rows = [0, 1].map(|row| Order::of(self.job, &self.placement, row));
                let numbers = numbers(self.job, &self.placement, &rows);
                (&mut self.least.without_rule_8, numbers.cost)
            }
            Err(_) => return,
        };
        *least = Some(least.map_or(cost, |least| least.min(cost)));
    }

    /// Whether a pose of a cell would share a site with an earlier cell of one of its rows.
    fn overlaps(&self, cell: usize, pose: &Pose) -> bool {
        let cells = &self.job.cells;
        let end = pose.end(&cells[cell]);
        cells.iter().zip(&self.placement).any(|(other, placed)| {
            let (rows, others) = (cells[cell].rows(), other.rows());
            let one_row = rows.start < others.end && others.start < rows.end;
            one_row && placed.site < end && pose.site < placed.end(other)
        })
    }
}
