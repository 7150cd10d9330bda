//! The cases of a tall cell, and the prices of stretches to it.

use super::block::{Block, Lanes, Rows};
use super::stretch::{Finish, Start, Stretch};
use super::{Board, Charge, NONE};

/// The least charge of each case of a tall cell: by its pairs in both rows, then by the lane of its
/// pose. The edge before the first tall cell counts as one with one pair and one lane.
pub struct Cases<const L: usize> {
    /// How many pairs there are in each row.
    pub pairs: usize,
    charges: Vec<Lanes<L>>,
    /// Whether some lane of a row of `charges` is reached.
    live: Vec<bool>,
}

impl<const L: usize> Cases<L> {
    pub fn none(pairs: usize) -> Cases<L> {
        Cases {
            pairs,
            charges: vec![[NONE; L]; pairs * pairs],
            live: vec![false; pairs * pairs],
        }
    }

    pub fn set(&mut self, case: usize, lane: usize, charge: Charge) {
        self.charges[case][lane] = charge;
        self.live[case] = true;
    }

    /// The charges of two pairs, if some lane is reached.
    pub fn row(&self, pair_0: usize, pair_1: usize) -> Option<&Lanes<L>> {
        let case = pair_0 * self.pairs + pair_1;
        self.live[case].then(|| &self.charges[case])
    }
}

impl Cases<1> {
    pub fn edge() -> Cases<1> {
        Cases {
            pairs: 1,
            charges: vec![[0.0]],
            live: vec![true],
        }
    }
}

/// Where the cheapest way to a case comes from: the pairs of the tall cell before it in each row,
/// and the lane of its pose.
#[derive(Clone, Copy, Default)]
pub struct Source {
    pub pairs: [u8; 2],
    pub lane: u8,
}

/// The source of each case, in the order of the cases.
pub type Sources<const L: usize> = Vec<[Source; L]>;

/// Prices of stretches in one row: for each starting pair, a block for each pair at the end.
pub struct Prices<const L: usize> {
    pub pairs: usize,
    blocks: Vec<Block>,
    rows: Rows<L>,
}

/// A stretch to a pose of a tall cell: the pair that it starts from, and what it charges by lane.
pub struct Way<'a, const L: usize> {
    pub start: usize,
    pub charges: &'a Lanes<L>,
}

impl<const L: usize> Prices<L> {
    pub fn new(board: &Board, starts: usize) -> Prices<L> {
        let pairs = board.pairs.list.len();
        Prices {
            pairs,
            blocks: vec![Block::default(); starts * pairs],
            rows: Rows::default(),
        }
    }

    /// Fills in the prices from starts to the tall cell at a file place; dead starts are skipped.
    pub fn fill<'a>(
        &mut self,
        stretch: &mut Stretch<'a, L>,
        starts: impl Iterator<Item = Option<Start<'a>>>,
        place: usize,
    ) {
        self.blocks.fill(Block::default());
        self.rows.clear();
        for (blocks, start) in self.blocks.chunks_exact_mut(self.pairs).zip(starts) {
            if start.is_some_and(|start| stretch.begin(start)) {
                let rows = &mut self.rows;
                stretch.run_to_tall(Finish {
                    place,
                    blocks,
                    rows,
                });
            }
        }
    }

    /// Sets, for each pair at the end, the ways to a pose.
    pub fn ways<'a>(&'a self, pose: usize, ways: &mut [Vec<Way<'a, L>>]) {
        ways.iter_mut().for_each(Vec::clear);
        for (start, blocks) in self.blocks.chunks_exact(self.pairs).enumerate() {
            for (block, ways) in blocks.iter().zip(&mut *ways) {
                let row = block.row(&self.rows, pose);
                ways.extend(row.map(|charges| Way { start, charges }));
            }
        }
    }
}
