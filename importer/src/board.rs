//! Cells as they stand: what the desk's tools tell of a placement and what a picture shows of it.

use crate::explain::{Cell, Edge, Header, Job, Layout, RawPose};

/// All cells of a job as a placement has them, in file order.
pub struct Board<'job> {
    pub header: &'job Header,
    pub stands: Vec<Stand<'job>>,
}

pub struct Stand<'job> {
    /// The cell's number, counted from 1.
    pub number: u32,
    pub cell: &'job Cell,
    pub pose: RawPose,
}

/// What stands on the left and on the right: none at an end of the row.
pub type Sides<'board, 'job> = [Option<&'board Stand<'job>>; 2];

impl<'job> Board<'job> {
    pub fn of(job: &'job Job, poses: &[RawPose]) -> Board<'job> {
        let cells = (1..).zip(job.cells.iter().zip(poses));
        let stand = |(number, (cell, &pose))| Stand { number, cell, pose };
        Board {
            header: &job.header,
            stands: cells.map(stand).collect(),
        }
    }

    /// The cells of a row in file order.
    pub fn row(&self, row: u32) -> impl Iterator<Item = &Stand<'job>> {
        let stands = self.stands.iter();
        stands.filter(move |stand| stand.cell.stands_in(row))
    }

    /// The neighbours of a row from left to right: its start and its first cell, two cells each,
    /// its last cell and its end. Where cells overlap, the one that reaches furthest is on the left.
    pub fn neighbours(&self, row: u32) -> Vec<Sides<'_, 'job>> {
        let mut stands: Vec<_> = self.row(row).collect();
        stands.sort_by_key(|stand| stand.pose.site);
        let (mut furthest, mut neighbours) = (None::<&Stand>, Vec::new());
        for stand in stands {
            neighbours.push([furthest, Some(stand)]);
            let before = furthest.filter(|before| before.end() >= stand.end());
            furthest = before.or(Some(stand));
        }
        neighbours.push([furthest, None]);
        neighbours
    }

    /// Those neighbours of a row that are two cells.
    pub fn pairs(&self, row: u32) -> impl Iterator<Item = (&Stand<'job>, &Stand<'job>)> {
        let neighbours = self.neighbours(row).into_iter();
        neighbours.filter_map(|[left, right]| left.zip(right))
    }
}

impl<'job> Stand<'job> {
    /// The layout in which it stands, if the cell has it.
    pub fn layout(&self) -> Option<&'job Layout> {
        self.cell.layouts.get(self.pose.layout as usize)
    }

    pub fn is_mirrored(&self) -> bool {
        self.pose.mark == 1
    }

    /// Left and right edge in a row as it stands: mirroring exchanges them.
    pub fn edges(&self, row: u32) -> Option<[Edge; 2]> {
        let [left, right] = self.layout()?.edges_in(row)?;
        Some(if self.is_mirrored() {
            [right, left]
        } else {
            [left, right]
        })
    }

    /// Its width in layout 0, in which it was given.
    pub fn given_width(&self) -> u32 {
        self.cell.layouts.first().map_or(1, |layout| layout.width)
    }

    /// Its width; that of layout 0 where the cell has no such layout, which rule 1 says before any
    /// other asks for a width.
    pub fn width(&self) -> u32 {
        let layout = self.layout();
        layout.map_or(self.given_width(), |layout| layout.width)
    }

    /// The first site right of the cell.
    pub fn end(&self) -> u32 {
        self.pose.site + self.width()
    }
}

#[cfg(test)]
mod tests {
    use super::*;
    use crate::explain::{read_job, read_placement};

    /// The neighbours in row 0 of cells of 9, 2 and 2 sites, by their numbers; 0 is the row's end.
    fn neighbours(placement: &str) -> Vec<[u32; 2]> {
        let cell = |width| format!("C,0,0,0,1,{width},1,1,1,1\n");
        let job = format!("J,1,30,7,1,1,1,1,1\n{}", [9, 2, 2].map(cell).concat());
        let job = read_job(job.as_bytes()).expect("a job in form");
        let poses = read_placement(placement.as_bytes(), 3).expect("poses in form");
        let board = Board::of(&job, &poses);
        let number = |side: Option<&Stand>| side.map_or(0, |stand| stand.number);
        let neighbours = board.neighbours(0).into_iter();
        neighbours.map(|sides| sides.map(number)).collect()
    }

    #[test]
    fn neighbours_stand_from_left_to_right() {
        let found = neighbours("9,0,0\n4,0,0\n20,0,0\n");
        assert_eq!(found, [[0, 2], [2, 1], [1, 3], [3, 0]]);
    }

    #[test]
    fn of_cells_that_overlap_the_one_that_reaches_furthest_is_on_the_left() {
        // Cell 1 takes sites 4 to 12, and cell 2 stands on 6 and 7.
        let found = neighbours("4,0,0\n6,0,0\n15,0,0\n");
        assert_eq!(found, [[0, 1], [1, 2], [1, 3], [3, 0]]);
        // Now cell 2 stands on 12 and 13, and so reaches further.
        let found = neighbours("4,0,0\n12,0,0\n15,0,0\n");
        assert_eq!(found, [[0, 1], [1, 2], [2, 3], [3, 0]]);
    }
}
