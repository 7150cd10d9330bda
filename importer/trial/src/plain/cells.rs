//! Some of a job's cells.

use std::ops::BitOr;

/// A set of cells, a bit for each place in the file.
#[derive(Clone, Copy, Debug, Default, PartialEq, Eq)]
pub struct Cells(u64);

impl Cells {
    pub fn is_empty(self) -> bool {
        self.0 == 0
    }

    /// Their numbers, counted from 1, in rising order.
    pub fn numbers(self) -> impl Iterator<Item = u32> {
        let is_in = move |at: &u32| self.0 >> at & 1 == 1;
        (0..u64::BITS).filter(is_in).map(|at| at + 1)
    }

    /// The number of the lowest of them; none has number 0.
    pub fn lowest(self) -> u32 {
        self.numbers().next().unwrap_or(0)
    }
}

/// From their places in the file, counted from 0.
impl FromIterator<usize> for Cells {
    fn from_iter<Places: IntoIterator<Item = usize>>(places: Places) -> Cells {
        let bits = places.into_iter().map(|at| 1 << at);
        Cells(bits.fold(0, u64::bitor))
    }
}

impl BitOr for Cells {
    type Output = Cells;

    fn bitor(self, other: Cells) -> Cells {
        Cells(self.0 | other.0)
    }
}
