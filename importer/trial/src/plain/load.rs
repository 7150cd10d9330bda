//! A load for the farm (A3): the job that a seed and a count of cells stand for, the same on each
//! machine.

use super::job::{Cell, Job, Layout, Weights, MOST_CELLS, MOST_TALL, TALL};
use super::Refused;

/// How many bytes an output must have, whatever the text's length.
pub const OUTPUT: usize = 8192;

const TOO_MANY: u32 = 9;
const SHORT_OUTPUT: u32 = 10;

/// What each draw adds to the counter w.
const COUNTER_STEP: u32 = 362_437;

/// The draws of a seed, one after the other.
pub struct Draws {
    s: u32,
    w: u32,
}

impl Draws {
    /// The seed 0 is taken as 1.
    pub fn of(seed: u32) -> Draws {
        Draws {
            s: seed.max(1),
            w: 0,
        }
    }

    fn draw(&mut self) -> u32 {
        self.s ^= self.s << 13;
        self.s ^= self.s >> 17;
        self.s ^= self.s << 5;
        self.w = self.w.wrapping_add(COUNTER_STEP);
        self.s.wrapping_add(self.w)
    }

    /// A field from `low` to `high`, both included.
    fn field(&mut self, low: u16, high: u16) -> u16 {
        low + (self.draw() % u32::from(high - low + 1)) as u16
    }

    fn heights(&mut self) -> [u16; 4] {
        [(); 4].map(|()| self.field(1, 4))
    }

    fn layout(&mut self, row: u16) -> Layout {
        let width = self.field(1, 16);
        let of_row_0 = self.heights();
        let of_row_1 = match row {
            TALL => self.heights(),
            _ => of_row_0,
        };
        Layout {
            width,
            heights: [of_row_0, of_row_1],
        }
    }

    /// The next cell, in line order; `highest` has the largest given site so far in each row.
    fn cell(&mut self, highest_row: u16, highest: &mut [u16; 2]) -> Cell {
        let mut cell = Cell {
            row: self.field(0, highest_row),
            ..Cell::default()
        };
        let so_far = &mut highest[cell.rows()];
        let largest = so_far.iter().copied().max().unwrap_or(0);
        cell.given = largest + self.field(0, 12);
        so_far.fill(cell.given);
        cell.mirrorable = self.field(0, 1) == 1;
        cell.layouts = self.field(1, 2);
        for at in 0..usize::from(cell.layouts) {
            cell.layout[at] = self.layout(cell.row);
        }
        cell
    }
}

impl Iterator for Draws {
    type Item = u32;

    fn next(&mut self) -> Option<u32> {
        Some(self.draw())
    }
}

/// The job of a seed and a count of cells.
pub fn job(seed: u32, cells: usize) -> Job {
    let mut job = Job {
        rows: 2,
        sites: 1024,
        displacement: 7,
        reordering: 1,
        weights: Weights {
            step: 100,
            shift: 1,
            mirror: 100,
            swap: 50,
            filled: None,
        },
        cells: Vec::new(),
    };
    let mut draws = Draws::of(seed);
    let mut highest = [0; 2];
    for _ in 0..cells {
        let highest_row = if job.tall_cells() < MOST_TALL { 2 } else { 1 };
        job.cells.push(draws.cell(highest_row, &mut highest));
    }
    job
}

/// The job's text, or why it is refused to an output of so many bytes.
pub fn load(seed: u32, cells: u32, room: usize) -> Result<Vec<u8>, Refused> {
    let refuse = |number| Refused { number, line: 0 };
    let count = usize::try_from(cells).ok();
    let count = count.filter(|&count| count <= MOST_CELLS);
    let count = count.ok_or(refuse(TOO_MANY))?;
    if room < OUTPUT {
        return Err(refuse(SHORT_OUTPUT));
    }
    Ok(job(seed, count).text())
}
