//! The least charges of a last cell, by its pose and by the lane of the start.

use super::gathered::Gathered;
use super::lines::{Line, POSES, VARIANTS};
use super::{Charge, NONE};

/// A row of charges, one for each lane.
pub type Lanes<const L: usize> = [Charge; L];

/// For each pose of a cell that some lane reaches, the least charges of ending there, by lane. The
/// rows stand among others.
#[derive(Clone, Copy, Default)]
pub struct Block {
    /// A bit for each pose that some lane reaches; only these have a row.
    live: u64,
    /// Where the first of their rows stands; the others follow by pose.
    first: usize,
}

impl Block {
    pub fn is_live(&self) -> bool {
        self.live != 0
    }

    /// The row of a pose, if it has one.
    pub fn row<'a, const L: usize>(&self, rows: &'a Rows<L>, pose: usize) -> Option<&'a Lanes<L>> {
        let before = self.live & ((1 << pose) - 1);
        let at = self.first + before.count_ones() as usize;
        (self.live >> pose & 1 == 1).then(|| &rows.rows[at])
    }

    /// The poses that have a row, each with it.
    pub fn rows<'a, const L: usize>(
        &self,
        rows: &'a Rows<L>,
    ) -> impl Iterator<Item = (usize, &'a Lanes<L>)> {
        let mut live = self.live;
        let poses = std::iter::from_fn(move || {
            let pose = live.trailing_zeros() as usize;
            live &= live.wrapping_sub(1);
            (pose < POSES).then_some(pose)
        });
        poses.zip(&rows.rows[self.first..])
    }
}

/// The rows of many blocks, one behind the other.
#[derive(Clone, Default)]
pub struct Rows<const L: usize> {
    rows: Vec<Lanes<L>>,
    /// How many of them are in use.
    used: usize,
}

impl<const L: usize> Rows<L> {
    /// No row is in use any more.
    pub fn clear(&mut self) {
        self.used = 0;
    }

    /// A block without rows, behind the others.
    fn block(&self) -> Block {
        Block {
            live: 0,
            first: self.used,
        }
    }

    /// One more row for the last block; its charges are left from earlier.
    fn add(&mut self, block: &mut Block, pose: usize) -> &mut Lanes<L> {
        if self.used == self.rows.len() {
            self.rows.push([NONE; L]);
        }
        block.live |= 1 << pose;
        self.used += 1;
        &mut self.rows[self.used - 1]
    }

    /// A row's first cell, by its own charges: nothing stands left of it.
    pub fn first_cell(&mut self, line: &Line, own: &[Charge; POSES]) -> Block {
        let mut block = self.block();
        for &pose in line.poses.iter().filter(|&&pose| line.may_open(pose)) {
            *self.add(&mut block, pose) = [own[pose]; L];
        }
        block
    }

    /// The next cell after what was gathered for it, by its own charges.
    pub fn next_cell(
        &mut self,
        gathered: &Gathered<L>,
        line: &Line,
        own: &[Charge; POSES],
    ) -> Block {
        let mut block = self.block();
        let at_one_site = |one: &usize, other: &usize| one / VARIANTS == other / VARIANTS;
        for poses in line.poses.chunk_by(at_one_site) {
            let Some(left) = gathered.left_of(poses[0] / VARIANTS) else {
                continue;
            };
            for &pose in poses {
                let variant = pose % VARIANTS;
                let [touching, two_apart, three_apart] = left.near.map(|near| &near[variant]);
                let (far, own) = (left.far, own[pose]);
                let row = self.add(&mut block, pose);
                for lane in 0..L {
                    let near = least(least(touching[lane], two_apart[lane]), three_apart[lane]);
                    row[lane] = least(near, far[lane]) + own;
                }
            }
        }
        block
    }
}

/// The lesser of two charges, as processors have it: `f32::min` minds what is no number.
pub fn least(one: Charge, other: Charge) -> Charge {
    if one < other {
        one
    } else {
        other
    }
}

/// Lowers charges to those of another row, where they are less.
pub fn lower<const L: usize>(charges: &mut Lanes<L>, row: &Lanes<L>) {
    for lane in 0..L {
        charges[lane] = least(charges[lane], row[lane]);
    }
}
