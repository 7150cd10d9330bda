//! A job's values as lines of its text.

use super::{Cell, Header, Heights, Job, Layout, Stand, Weights};
use std::fmt;

/// The job's text.
impl fmt::Display for Job {
    fn fmt(&self, out: &mut fmt::Formatter<'_>) -> fmt::Result {
        writeln!(out, "{}", self.header)?;
        let mut cells = self.cells.iter();
        cells.try_for_each(|cell| writeln!(out, "{cell}"))
    }
}

/// The first line, without its line feed.
impl fmt::Display for Header {
    fn fmt(&self, out: &mut fmt::Formatter<'_>) -> fmt::Result {
        let Header { rows, sites, .. } = self;
        let (displacement, reordering) = (self.displacement, self.reordering);
        let Weights {
            step,
            shift,
            mirror,
            swap,
            filled,
        } = self.weights;
        let lead = if filled.is_some() { 'K' } else { 'J' };
        write!(out, "{lead},{rows},{sites},{displacement},{reordering},")?;
        write!(out, "{step},{shift},{mirror},{swap}")?;
        match filled {
            Some(filled) => write!(out, ",{filled}"),
            None => Ok(()),
        }
    }
}

/// The cell's line, without its line feed.
impl fmt::Display for Cell {
    fn fmt(&self, out: &mut fmt::Formatter<'_>) -> fmt::Result {
        let (given, mirrorable) = (self.given, u32::from(self.mirrorable));
        let lead = self.lead();
        match &self.stand {
            Stand::Single { row, layouts } => {
                write!(out, "{lead},{row},{given},{mirrorable},{}", layouts.len())?;
                layouts.iter().try_for_each(|layout| layout.write(out))
            }
            Stand::Tall { layouts } => {
                write!(out, "{lead},2,{given},{mirrorable},{}", layouts.len())?;
                layouts.iter().try_for_each(|layout| layout.write(out))
            }
        }
    }
}

impl Cell {
    /// What its line begins with.
    fn lead(&self) -> char {
        match self.fixed {
            true => 'F',
            false => 'C',
        }
    }
}

impl<const ROWS: usize> Layout<ROWS> {
    /// The layout's fields behind those that stand before it.
    fn write(&self, out: &mut fmt::Formatter<'_>) -> fmt::Result {
        write!(out, ",{}", self.width)?;
        self.heights.iter().try_for_each(|heights| {
            let Heights { left_p, left_n, .. } = heights;
            write!(
                out,
                ",{left_p},{left_n},{},{}",
                heights.right_p, heights.right_n
            )
        })
    }
}
