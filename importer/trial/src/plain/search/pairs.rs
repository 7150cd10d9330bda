//! Which cells of the window are placed, and which is the last.

/// A state of a row after i cells, but for the last cell's pose. The window has the 2R + 1 file
/// places from i - 1 - R on.
#[derive(Clone, Copy)]
pub struct Pair {
    /// The last cell's place in the window.
    pub last: usize,
    /// The placed cells of the window, the lowest bit for its first place.
    pub marks: u32,
    /// The marks of the window before the last cell was placed.
    pub before: u32,
}

/// The pairs that can be reached with a reordering limit.
pub struct Pairs {
    pub reordering: usize,
    pub list: Vec<Pair>,
    /// The marks of a row before its first cell and after its last.
    pub closed: u32,
}

impl Pairs {
    pub fn of(reordering: usize) -> Pairs {
        let width = 2 * reordering + 1;
        let ones = reordering as u32 + 1;
        let marks = (1..1 << width).filter(|marks: &u32| marks & 1 == 1);
        let list = marks
            .filter(|marks| marks.count_ones() == ones)
            .flat_map(|marks| (0..width).filter_map(move |last| pair(width, marks, last)))
            .collect();
        Pairs {
            reordering,
            list,
            closed: (1 << ones) - 1,
        }
    }

    /// After how many cells a cell at a file place is the last one of a pair.
    pub fn cells_at(&self, place: usize, pair: usize) -> Option<usize> {
        (place + 1 + self.reordering).checked_sub(self.list[pair].last)
    }

    /// The file place of a pair's last cell after so many cells, if the row goes that far back.
    pub fn place_at(&self, cells: usize, pair: usize) -> Option<usize> {
        (cells + self.list[pair].last).checked_sub(1 + self.reordering)
    }
}

/// The pair, if its last cell is one of the marked ones and the window before could be. A cell at
/// the window's end cannot have been placed earlier.
fn pair(width: usize, marks: u32, last: usize) -> Option<Pair> {
    let others = marks & !(1 << last);
    let reachable = others != marks && others >> (width - 1) == 0;
    reachable.then_some(Pair {
        last,
        marks,
        before: others << 1 | 1,
    })
}
