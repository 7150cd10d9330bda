//! A placement as a value, and its text.

use super::job::{Cell, Job, Layout, MOST_CELLS};
use super::numbers::read_numbers;
use std::fmt::Write;

/// How one cell stands.
#[derive(Clone, Copy, Debug, Default, PartialEq, Eq)]
pub struct Pose {
    pub site: u16,
    pub layout: u16,
    pub mark: u16,
}

impl Pose {
    /// The layout that a cell has in this pose, which must be one of its own.
    pub fn layout_of<'a>(&self, cell: &'a Cell) -> &'a Layout {
        &cell.layout[usize::from(self.layout)]
    }

    /// The first site right of a cell in this pose.
    pub fn end(&self, cell: &Cell) -> u16 {
        self.site + self.layout_of(cell).width
    }
}

/// A pose for each cell, in file order.
pub type Placement = Vec<Pose>;

/// Each cell at its given site, in layout 0, unmirrored.
pub fn given_rows(job: &Job) -> Placement {
    let pose = |cell: &Cell| Pose {
        site: cell.given,
        layout: 0,
        mark: 0,
    };
    job.cells.iter().map(pose).collect()
}

pub fn text_of(placement: &[Pose]) -> Vec<u8> {
    let mut text = String::new();
    for Pose { site, layout, mark } in placement {
        writeln!(text, "{site},{layout},{mark}").expect("a string takes every write");
    }
    text.into_bytes()
}

/// The placement of so many cells that a text says, or the earliest line that is bad, missing or
/// surplus.
pub fn read_placement(text: &[u8], cells: usize) -> Result<Placement, u32> {
    let mut placement = Vec::with_capacity(MOST_CELLS);
    let mut at = 0;
    for line in 1..=cells as u32 {
        let numbers = read_numbers(text, at).ok_or(line)?;
        let &[site, layout, mark] = numbers.values() else {
            return Err(line);
        };
        placement.push(Pose { site, layout, mark });
        at = numbers.next;
    }
    if at == text.len() {
        Ok(placement)
    } else {
        Err(cells as u32 + 1)
    }
}
