//! A stretch of single cells in one row, layer by layer, for many starts at once.

use super::block::{lower, Block, Lanes, Rows};
use super::gathered::Gathered;
use super::lines::{Line, Row, POSES};
use super::{Board, Charge, NONE};

/// Where a stretch starts.
#[derive(Clone, Copy)]
pub enum Start<'a> {
    /// Before the row's first cell.
    Edge,
    /// At a tall cell, by its file place in the row, its pair, and a pose of it for each lane.
    Tall {
        place: usize,
        pair: usize,
        poses: &'a [usize],
    },
}

/// A row on its way from left to right.
pub struct Stretch<'a, const L: usize> {
    board: &'a Board,
    row: &'a Row,
    pub layer: Layer<'a, L>,
    next: Layer<'a, L>,
    gathered: Box<Gathered<L>>,
}

/// For each pair, the charges of its last cell after so many cells.
#[derive(Clone)]
pub struct Layer<'a, const L: usize> {
    pub cells: usize,
    /// The start, where the stretch has not left it yet: there are no blocks then.
    start: Option<Start<'a>>,
    pub blocks: Vec<Block>,
    pub rows: Rows<L>,
}

/// A tall cell that a stretch runs to: its file place, and its blocks by pair, without the cell's
/// own charge.
pub struct Finish<'a, const L: usize> {
    pub place: usize,
    pub blocks: &'a mut [Block],
    pub rows: &'a mut Rows<L>,
}

impl<'a, const L: usize> Stretch<'a, L> {
    /// A stretch that is not started yet.
    pub fn new(board: &'a Board, row: &'a Row) -> Self {
        let layer = Layer {
            cells: 0,
            start: None,
            blocks: vec![Block::default(); board.pairs.list.len()],
            rows: Rows::default(),
        };
        Stretch {
            board,
            row,
            layer: layer.clone(),
            next: layer,
            gathered: Box::new(Gathered::empty(board.step)),
        }
    }

    /// Begins at a start. False if the row has no such state.
    pub fn begin(&mut self, start: Start<'a>) -> bool {
        let cells = match start {
            Start::Edge => Some(0),
            Start::Tall { place, pair, .. } => self.board.pairs.cells_at(place, pair),
        };
        self.layer.start = Some(start);
        self.layer.cells = cells.unwrap_or(usize::MAX);
        self.layer.cells <= self.row.lines.len()
    }

    /// Runs to a tall cell.
    pub fn run_to_tall(&mut self, mut finish: Finish<L>) {
        let last = finish.place + 1 + self.board.pairs.reordering;
        while self.layer.cells < last.min(self.row.lines.len()) {
            self.advance(Some(&mut finish));
        }
    }

    /// Runs to the row's end; the least charge of ending there, by lane.
    pub fn run_to_end(&mut self) -> Lanes<L> {
        while self.layer.cells < self.row.lines.len() {
            self.advance(None);
        }
        self.layer.ending(self.board, self.row)
    }

    /// Places one more cell. A tall cell is placed only as the finish.
    pub fn advance(&mut self, mut finish: Option<&mut Finish<L>>) {
        let (board, row) = (self.board, self.row);
        self.next.cells = self.layer.cells + 1;
        self.next.start = None;
        self.next.rows.clear();
        for (at, pair) in board.pairs.list.iter().enumerate() {
            let place = board.pairs.place_at(self.next.cells, at);
            let line = place.and_then(|place| row.lines.get(place));
            self.next.blocks[at] = Block::default();
            let Some(line) = line else { continue };
            let Layer { blocks, rows, .. } = &mut self.next;
            let (own, block, rows) = match &mut finish {
                _ if !line.tall => (&line.own, &mut blocks[at], rows),
                Some(finish) if place == Some(finish.place) => {
                    (&NO_CHARGE, &mut finish.blocks[at], &mut *finish.rows)
                }
                _ => continue,
            };
            let gathered = &mut self.gathered;
            let left = self.layer.left_of(line, pair.before, board, row, gathered);
            *block = match left {
                Left::Nothing => Block::default(),
                Left::Edge => rows.first_cell(line, own),
                Left::Cells => rows.next_cell(&self.gathered, line, own),
            };
        }
        std::mem::swap(&mut self.layer, &mut self.next);
    }
}

/// What a tall cell's poses charge where its own charge is left out.
const NO_CHARGE: [Charge; POSES] = [0.0; POSES];

/// What a layer has for a cell to stand right of.
enum Left {
    /// No state that the cell may follow.
    Nothing,
    /// The row's left edge.
    Edge,
    /// Cells, which were gathered.
    Cells,
}

impl<const L: usize> Layer<'_, L> {
    /// Gathers what a cell stands right of, if these must be the marks before it.
    fn left_of(
        &self,
        target: &Line,
        marks: u32,
        board: &Board,
        row: &Row,
        gathered: &mut Gathered<L>,
    ) -> Left {
        let pairs = &board.pairs;
        match self.start {
            Some(Start::Edge) if marks == pairs.closed => Left::Edge,
            Some(Start::Tall { place, pair, poses }) if marks == pairs.list[pair].marks => {
                gathered.gather_start(&row.lines[place], poses, target, board.step);
                Left::Cells
            }
            Some(_) => Left::Nothing,
            None => {
                let blocks = self.blocks_with(marks, board, row);
                if gathered.gather(blocks, &self.rows, target, board.step) {
                    Left::Cells
                } else {
                    Left::Nothing
                }
            }
        }
    }

    /// The live blocks after which these are the marks, each with its last cell.
    fn blocks_with<'a>(
        &'a self,
        marks: u32,
        board: &'a Board,
        row: &'a Row,
    ) -> impl Iterator<Item = (&'a Line, Block)> {
        let pairs = &board.pairs;
        let of_pairs = pairs.list.iter().zip(&self.blocks).enumerate();
        let live =
            of_pairs.filter(move |(_, (pair, block))| pair.marks == marks && block.is_live());
        live.filter_map(|(pair, (_, &block))| {
            let place = pairs.place_at(self.cells, pair)?;
            Some((row.lines.get(place)?, block))
        })
    }

    /// The least charge of ending the row here, by lane.
    fn ending(&self, board: &Board, row: &Row) -> Lanes<L> {
        let mut ending = [NONE; L];
        let closed = board.pairs.closed;
        match self.start {
            Some(Start::Edge) => ending = [0.0; L],
            Some(Start::Tall { place, pair, poses }) => {
                if board.pairs.list[pair].marks == closed {
                    for (lane, &pose) in poses.iter().enumerate() {
                        if row.lines[place].may_close(pose) {
                            ending[lane] = 0.0;
                        }
                    }
                }
            }
            None => {
                for (line, block) in self.blocks_with(closed, board, row) {
                    let closing = block
                        .rows(&self.rows)
                        .filter(|(pose, _)| line.may_close(*pose));
                    closing.for_each(|(_, row)| lower(&mut ending, row));
                }
            }
        }
        ending
    }
}
