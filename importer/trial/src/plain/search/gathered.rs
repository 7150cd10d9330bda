//! What may stand left of a cell, gathered by end site.

use super::block::{least, lower, Block, Lanes, Rows};
use super::lines::{Line, VARIANTS};
use super::{Charge, Step, NONE};
use std::ops::Range;

/// End sites that bear on one target cell: from four sites left of its first site to its last.
const ENDS: usize = 15 + 4;

/// Those of them that are two or three sites left of one of its sites.
const FILLED_ENDS: Range<usize> = 1..ENDS - 2;

/// By end site, and by the target's variant, the least charge over sources that end there, steps
/// included.
type Near<const L: usize> = [[Lanes<L>; VARIANTS]; ENDS];

/// Sources gathered by their end site, counted from four sites left of the target's first.
pub struct Gathered<const L: usize> {
    /// With the steps of cells that touch.
    touching: Near<L>,
    /// With filled steps, if these charge otherwise; else `touching` serves.
    filled: Option<Box<Near<L>>>,
    /// The least charge over sources that end here or further left.
    far: [Lanes<L>; ENDS],
    /// A bit for each end site that has sources; the rows of others mean nothing.
    live: u32,
    /// What stands for the rows of others.
    none: [Lanes<L>; VARIANTS],
}

/// What bears on a target at one of its sites: sources that end 0, 2 and 3 sites left of it, by the
/// target's variant, and all that end further left.
pub struct LeftOf<'a, const L: usize> {
    pub near: [&'a [Lanes<L>; VARIANTS]; 3],
    pub far: &'a Lanes<L>,
}

impl<const L: usize> Gathered<L> {
    pub fn empty(step: Step) -> Gathered<L> {
        let none = [[[NONE; L]; VARIANTS]; ENDS];
        let differs = step.filled != step.touching;
        Gathered {
            touching: none,
            filled: differs.then(|| Box::new(none)),
            far: [[NONE; L]; ENDS],
            live: 0,
            none: [[NONE; L]; VARIANTS],
        }
    }

    /// What bears on the target at a site, counted from its first; none if nothing does.
    pub fn left_of<'a>(&'a self, site: usize) -> Option<LeftOf<'a, L>> {
        let is_live = |end: usize| self.live >> end & 1 == 1;
        let near = |near: &'a Near<L>, end: usize| {
            if is_live(end) {
                &near[end]
            } else {
                &self.none
            }
        };
        let filled = self.filled.as_deref().unwrap_or(&self.touching);
        let far = (self.live & ((2 << site) - 1)).checked_ilog2();
        let live = far.is_some() || is_live(site + 1) || is_live(site + 2) || is_live(site + 4);
        live.then(|| LeftOf {
            near: [
                near(&self.touching, site + 4),
                near(filled, site + 2),
                near(filled, site + 1),
            ],
            far: far.map_or(&self.none[0], |last| &self.far[last as usize]),
        })
    }

    /// Where a cell ends, as seen from a target; none if that is too far right to bear on it.
    fn end(line: &Line, pose: usize, target: &Line) -> Option<usize> {
        let end = (line.end(pose) - (target.first_site - 4)).max(0) as usize;
        (end < ENDS).then_some(end)
    }

    /// Gathers sources for a target. False if there are none.
    pub fn gather<'a>(
        &mut self,
        sources: impl Iterator<Item = (&'a Line, Block)>,
        rows: &Rows<L>,
        target: &Line,
        step: Step,
    ) -> bool {
        self.live = 0;
        for (line, block) in sources {
            let near = block.rows(rows).filter_map(|(pose, row)| {
                let end = Self::end(line, pose, target)?;
                Some((row, end, pose % VARIANTS))
            });
            let steps = line.steps(target, step.touching);
            if self.filled.is_none() {
                near.for_each(|(row, end, variant)| self.add(row, end, &steps[variant]));
                continue;
            }
            let filled = line.steps(target, step.filled);
            for (row, end, variant) in near {
                self.add_filled(row, end, &filled[variant]);
                self.add(row, end, &steps[variant]);
            }
        }
        self.add_up();
        self.live != 0
    }

    /// Gathers the start at a tall cell for a target: each lane has one of its poses, at no charge.
    pub fn gather_start(&mut self, start: &Line, poses: &[usize], target: &Line, step: Step) {
        self.live = 0;
        let steps = start.steps(target, step.touching);
        for (lane, &pose) in poses.iter().enumerate() {
            if let Some(end) = Self::end(start, pose, target) {
                if self.live >> end & 1 == 0 {
                    self.touching[end] = [[NONE; L]; VARIANTS];
                    self.far[end] = [NONE; L];
                    self.live |= 1 << end;
                }
                self.far[end][lane] = 0.0;
                set_lane(&mut self.touching[end], lane, &steps[pose % VARIANTS]);
            }
        }
        if self.filled.is_some() {
            self.start_filled(start, poses, target, step.filled);
        }
        self.add_up();
    }

    /// The same for filled steps that charge otherwise.
    fn start_filled(&mut self, start: &Line, poses: &[usize], target: &Line, step: Charge) {
        let Some(near) = &mut self.filled else { return };
        let live = (0..ENDS).filter(|end| self.live >> end & 1 == 1);
        live.for_each(|end| near[end] = [[NONE; L]; VARIANTS]);
        let steps = start.steps(target, step);
        for (lane, &pose) in poses.iter().enumerate() {
            if let Some(end) = Self::end(start, pose, target) {
                set_lane(&mut near[end], lane, &steps[pose % VARIANTS]);
            }
        }
    }

    /// Adds a source by its end site and what steps charge by the target's variant.
    fn add(&mut self, row: &Lanes<L>, end: usize, steps: &[Charge; VARIANTS]) {
        let far = &mut self.far[end];
        // What ends four sites left of the target, or further, is near to none of its sites.
        let near = if end > 0 {
            &mut self.touching[end][..]
        } else {
            &mut []
        };
        let near = near.iter_mut().zip(steps);
        if self.live >> end & 1 == 0 {
            self.live |= 1 << end;
            *far = *row;
            near.for_each(|(near, &steps)| set(near, row, steps));
        } else {
            lower(far, row);
            near.for_each(|(near, &steps)| lower_with(near, row, steps));
        }
    }

    /// The same for filled steps that charge otherwise; first, as long as the end site is not live by
    /// this source.
    fn add_filled(&mut self, row: &Lanes<L>, end: usize, steps: &[Charge; VARIANTS]) {
        let near = self.filled.as_mut().filter(|_| FILLED_ENDS.contains(&end));
        let near = near.map_or(&mut [][..], |near| &mut near[end]);
        let near = near.iter_mut().zip(steps);
        if self.live >> end & 1 == 0 {
            near.for_each(|(near, &steps)| set(near, row, steps));
        } else {
            near.for_each(|(near, &steps)| lower_with(near, row, steps));
        }
    }

    /// Makes `far` hold for all end sites further left, too.
    fn add_up(&mut self) {
        let mut before: Option<usize> = None;
        for end in (0..ENDS).filter(|end| self.live >> end & 1 == 1) {
            if let Some(before) = before {
                let (left, right) = self.far.split_at_mut(end);
                lower(&mut right[0], &left[before]);
            }
            before = Some(end);
        }
    }
}

/// Sets one lane to what steps charge.
fn set_lane<const L: usize>(near: &mut [Lanes<L>; VARIANTS], lane: usize, steps: &[Charge]) {
    for (near, &steps) in near.iter_mut().zip(steps) {
        near[lane] = steps;
    }
}

/// Sets charges to those of another row with one more charge.
fn set<const L: usize>(charges: &mut Lanes<L>, row: &Lanes<L>, more: Charge) {
    for lane in 0..L {
        charges[lane] = row[lane] + more;
    }
}

/// Lowers charges to those of another row with one more charge, where they are less.
fn lower_with<const L: usize>(charges: &mut Lanes<L>, row: &Lanes<L>, more: Charge) {
    for lane in 0..L {
        charges[lane] = least(charges[lane], row[lane] + more);
    }
}
