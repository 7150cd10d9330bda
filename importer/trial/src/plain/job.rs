//! A job as a value, its limits, and its text.

use std::fmt::Write;
use std::iter;
use std::ops::Range;

pub const MOST_CELLS: usize = 64;
pub const MOST_TALL: usize = 24;
pub const MOST_REORDERING: u16 = 2;

/// The row of a cell that stands in both.
pub const TALL: u16 = 2;

#[derive(Clone, Debug, Default, PartialEq, Eq)]
pub struct Job {
    pub rows: u16,
    pub sites: u16,
    /// The displacement limit D.
    pub displacement: u16,
    /// The reordering limit R.
    pub reordering: u16,
    pub weights: Weights,
    pub cells: Vec<Cell>,
}

#[derive(Clone, Copy, Debug, Default, PartialEq, Eq)]
pub struct Weights {
    pub step: u16,
    pub shift: u16,
    pub mirror: u16,
    pub swap: u16,
    /// The weight of filled steps, where the first line is led by `K` (A7).
    pub filled: Option<u16>,
}

impl Weights {
    /// What filled steps weigh: as much as others where the first line is led by `J`.
    pub fn of_filled(&self) -> u16 {
        self.filled.unwrap_or(self.step)
    }
}

#[derive(Clone, Copy, Debug, Default, PartialEq, Eq)]
pub struct Cell {
    /// 0, 1, or [`TALL`].
    pub row: u16,
    pub given: u16,
    /// Led by `F`: it must not move (A2).
    pub fixed: bool,
    pub mirrorable: bool,
    /// How many of `layout` the cell has: 1 or 2.
    pub layouts: u16,
    pub layout: [Layout; 2],
}

#[derive(Clone, Copy, Debug, Default, PartialEq, Eq)]
pub struct Layout {
    pub width: u16,
    /// Fin heights left P, left N, right P, right N, for row 0 and for row 1. A cell in one row
    /// has the same four in both entries.
    pub heights: [[u16; 4]; 2],
}

impl Cell {
    pub fn is_tall(&self) -> bool {
        self.row == TALL
    }

    /// How many of its layouts it may stand in: a fixed cell keeps layout 0.
    pub fn offered_layouts(&self) -> u16 {
        if self.fixed {
            1
        } else {
            self.layouts
        }
    }

    /// The highest mark that it may have: a fixed cell stays unmirrored.
    pub fn highest_mark(&self) -> u16 {
        u16::from(self.mirrorable && !self.fixed)
    }

    /// The rows that the cell stands in.
    pub fn rows(&self) -> Range<usize> {
        match self.row {
            TALL => 0..2,
            row => usize::from(row)..usize::from(row) + 1,
        }
    }
}

impl Job {
    pub fn tall_cells(&self) -> usize {
        self.cells.iter().filter(|cell| cell.is_tall()).count()
    }

    pub fn fixed_cells(&self) -> usize {
        self.cells.iter().filter(|cell| cell.fixed).count()
    }

    /// How far a cell of the job may be shifted: a fixed cell's displacement limit is 0.
    pub fn displacement_of(&self, cell: &Cell) -> u16 {
        if cell.fixed {
            0
        } else {
            self.displacement
        }
    }

    /// The job's text.
    pub fn text(&self) -> Vec<u8> {
        let mut text = String::new();
        let weights = self.weights;
        let header = [
            self.rows,
            self.sites,
            self.displacement,
            self.reordering,
            weights.step,
            weights.shift,
            weights.mirror,
            weights.swap,
        ];
        let lead = if weights.filled.is_some() { 'K' } else { 'J' };
        write_line(&mut text, lead, header.into_iter().chain(weights.filled));
        for cell in &self.cells {
            let lead = if cell.fixed { 'F' } else { 'C' };
            write_line(&mut text, lead, cell.fields());
        }
        text.into_bytes()
    }
}

impl Cell {
    /// The fields of the cell's line, after the lead.
    fn fields(&self) -> impl Iterator<Item = u16> + '_ {
        let rows = if self.is_tall() { 2 } else { 1 };
        let layouts = &self.layout[..usize::from(self.layouts)];
        let of_layouts = layouts.iter().flat_map(move |layout| {
            let heights = layout.heights[..rows].iter().flatten();
            iter::once(layout.width).chain(heights.copied())
        });
        [self.row, self.given, self.mirrorable.into(), self.layouts]
            .into_iter()
            .chain(of_layouts)
    }
}

fn write_line(text: &mut String, lead: char, fields: impl IntoIterator<Item = u16>) {
    text.push(lead);
    for field in fields {
        write!(text, ",{field}").expect("a string takes every write");
    }
    text.push('\n');
}
