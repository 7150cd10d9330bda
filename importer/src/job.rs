//! Jobs as values, to be written as a job text.
//!
//! A [`Job`] writes what it is told. Ranges, counts and the order of given sites are for the
//! refiner to judge: [`read`](crate::read) accepts the text or names its line.
//!
//! ```
//! use importer::job::{Cell, Header, Job, Layout, Weights};
//! use importer::{read, refine};
//!
//! let header = Header {
//!     rows: 2,
//!     sites: 20,
//!     displacement: 1,
//!     reordering: 1,
//!     weights: Weights { step: 100, shift: 1, mirror: 100, swap: 50, filled: None },
//! };
//! let job = Job::new(header)
//!     .with(Cell::single(0, 2, [Layout::single(4, [3, 3, 2, 2])]).mirrorable())
//!     .with(Cell::single(0, 6, [Layout::single(4, [3, 3, 2, 2])]))
//!     .with(Cell::tall(12, [Layout::tall(5, [2, 2, 1, 1], [4, 4, 4, 4])]));
//! assert_eq!(
//!     job.to_string(),
//!     "J,2,20,1,1,100,1,100,50\n\
//!      C,0,2,1,1,4,3,3,2,2\n\
//!      C,0,6,0,1,4,3,3,2,2\n\
//!      C,2,12,0,1,5,2,2,1,1,4,4,4,4\n"
//! );
//! assert_eq!(read(&job.text())?.cells, 3);
//! assert_eq!(refine(&job.text())?.numbers.cost, 100);
//! # Ok::<(), importer::Refused>(())
//! ```
//!
//! Filled steps, which are those at gaps 2 and 3, may have a weight of their own:
//!
//! ```
//! use importer::job::{Header, Weights};
//!
//! let weights = Weights { step: 100, shift: 1, mirror: 100, swap: 50, filled: Some(30) };
//! let header = Header { rows: 2, sites: 20, displacement: 1, reordering: 1, weights };
//! assert_eq!(header.to_string(), "K,2,20,1,1,100,1,100,50,30");
//! ```
//!
//! A cell that was placed by hand and must not move is [`fixed`](Cell::fixed):
//!
//! ```
//! use importer::job::{Cell, Layout};
//!
//! let clock = Cell::single(0, 12, [Layout::single(5, [2, 2, 1, 1])]).fixed();
//! assert_eq!(clock.to_string(), "F,0,12,0,1,5,2,2,1,1");
//! ```

mod text;

/// A job: its first line, and its cells in file order.
#[derive(Clone, Debug, Default, PartialEq, Eq)]
pub struct Job {
    /// The first line.
    pub header: Header,
    /// The cells, in file order.
    pub cells: Vec<Cell>,
}

/// The first line of a job.
#[derive(Clone, Copy, Debug, Default, PartialEq, Eq)]
pub struct Header {
    /// Rows of the job: 1 or 2.
    pub rows: u32,
    /// Sites in each row.
    pub sites: u32,
    /// D: how many sites a cell may shift.
    pub displacement: u32,
    /// R: how many places a cell may move in its row's order.
    pub reordering: u32,
    /// What the numbers of a placement are weighed by.
    pub weights: Weights,
}

/// What the numbers of a placement are weighed by.
#[derive(Clone, Copy, Debug, Default, PartialEq, Eq)]
pub struct Weights {
    /// For each step; where filled steps have their own weight, for each of the others.
    pub step: u32,
    /// For each site shifted.
    pub shift: u32,
    /// For each cell mirrored.
    pub mirror: u32,
    /// For each cell in layout 1.
    pub swap: u32,
    /// For each filled step, one at a gap of 2 or 3 sites; none if it weighs as any step. With a
    /// weight the first line is led by `K`, without one by `J`.
    pub filled: Option<u32>,
}

/// A cell, made by [`Cell::single`] or [`Cell::tall`].
#[derive(Clone, Debug, PartialEq, Eq)]
#[non_exhaustive]
pub struct Cell {
    /// Its left site at the start.
    pub given: u32,
    /// Whether it must stay at its given site, in layout 0 and unmirrored, whatever else it says.
    pub fixed: bool,
    /// Whether it may be mirrored.
    pub mirrorable: bool,
    /// The rows that it stands in, and its layouts there.
    pub stand: Stand,
}

/// The rows that a cell stands in, and its layouts there, one or two.
#[derive(Clone, Debug, PartialEq, Eq)]
pub enum Stand {
    /// In one row.
    Single {
        /// The row, 0 or 1.
        row: u32,
        /// The layouts, the first one first.
        layouts: Vec<Layout<1>>,
    },
    /// In both rows.
    Tall {
        /// The layouts, the first one first.
        layouts: Vec<Layout<2>>,
    },
}

/// A layout of a cell that stands in so many rows.
#[derive(Clone, Copy, Debug, PartialEq, Eq)]
pub struct Layout<const ROWS: usize> {
    /// Sites that it takes.
    pub width: u32,
    /// Its fin heights in each of its rows.
    pub heights: [Heights; ROWS],
}

/// Fin heights in one row.
#[derive(Clone, Copy, Debug, Default, PartialEq, Eq)]
pub struct Heights {
    /// Left, P.
    pub left_p: u32,
    /// Left, N.
    pub left_n: u32,
    /// Right, P.
    pub right_p: u32,
    /// Right, N.
    pub right_n: u32,
}

impl Job {
    /// A job without cells.
    pub fn new(header: Header) -> Job {
        Job {
            header,
            cells: Vec::new(),
        }
    }

    /// The job with one more cell behind its others.
    #[must_use]
    pub fn with(mut self, cell: Cell) -> Job {
        self.cells.push(cell);
        self
    }

    /// The job's text, for [`read`](crate::read), [`score`](crate::score) and
    /// [`refine`](crate::refine).
    pub fn text(&self) -> Vec<u8> {
        self.to_string().into_bytes()
    }
}

impl Extend<Cell> for Job {
    fn extend<Cells: IntoIterator<Item = Cell>>(&mut self, cells: Cells) {
        self.cells.extend(cells);
    }
}

impl Cell {
    /// A cell in one row, 0 or 1, that may not be mirrored.
    pub fn single(row: u32, given: u32, layouts: impl Into<Vec<Layout<1>>>) -> Cell {
        let layouts = layouts.into();
        Cell::standing(given, Stand::Single { row, layouts })
    }

    /// A cell in both rows that may not be mirrored.
    pub fn tall(given: u32, layouts: impl Into<Vec<Layout<2>>>) -> Cell {
        let layouts = layouts.into();
        Cell::standing(given, Stand::Tall { layouts })
    }

    /// The cell, which may now be mirrored.
    #[must_use]
    pub fn mirrorable(mut self) -> Cell {
        self.mirrorable = true;
        self
    }

    /// The cell, which must now stay at its given site, in layout 0 and unmirrored. It may have two
    /// layouts and be mirrorable all the same.
    #[must_use]
    pub fn fixed(mut self) -> Cell {
        self.fixed = true;
        self
    }

    fn standing(given: u32, stand: Stand) -> Cell {
        Cell {
            given,
            fixed: false,
            mirrorable: false,
            stand,
        }
    }
}

impl Layout<1> {
    /// The layout of a cell in one row. Heights may be given as `[left P, left N, right P,
    /// right N]`.
    pub fn single(width: u32, heights: impl Into<Heights>) -> Layout<1> {
        Layout {
            width,
            heights: [heights.into()],
        }
    }
}

impl Layout<2> {
    /// The layout of a tall cell, with its heights in row 0 and in row 1.
    pub fn tall(width: u32, row_0: impl Into<Heights>, row_1: impl Into<Heights>) -> Layout<2> {
        Layout {
            width,
            heights: [row_0.into(), row_1.into()],
        }
    }
}

/// From left P, left N, right P, right N.
impl From<[u32; 4]> for Heights {
    fn from([left_p, left_n, right_p, right_n]: [u32; 4]) -> Heights {
        Heights {
            left_p,
            left_n,
            right_p,
            right_n,
        }
    }
}
