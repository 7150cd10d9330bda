//! What the picture shows of a cell as it stands.

use super::row::Span;
use crate::board::Stand;
use crate::explain::RawPose;

impl Stand<'_> {
    /// Whether it stands in a layout and with a mark that it may have.
    pub(super) fn is_offered(&self) -> bool {
        let RawPose { layout, mark, .. } = self.pose;
        self.cell.offers_layout(layout) && self.cell.offers_mark(mark)
    }

    pub(super) fn is_changed(&self) -> bool {
        self.pose.layout == 1
    }

    /// The uppermost row of the cell.
    pub(super) fn first_row(&self) -> u32 {
        match self.cell.is_tall() {
            true => 0,
            false => self.cell.row,
        }
    }

    /// The sites that it takes.
    pub(super) fn sites(&self) -> Span {
        Span {
            from: self.pose.site,
            end: self.end(),
        }
    }

    /// The sites that it was given.
    pub(super) fn given_sites(&self) -> Span {
        let from = self.cell.given;
        let end = from + self.given_width();
        Span { from, end }
    }

    /// `L1`.
    pub(super) fn layout_label(&self) -> String {
        format!("L{}", self.pose.layout)
    }

    /// All that there is to say of it, in one line.
    pub(super) fn words(&self) -> String {
        let (number, width) = (self.number, self.width());
        let RawPose { site, layout, mark } = self.pose;
        let rows = match self.cell.is_tall() {
            true => "rows 0 and 1".into(),
            false => format!("row {}", self.cell.row),
        };
        let mut words = format!(
            "cell {number}: {rows}, site {site}, width {width}, layout {layout}, mark {mark}"
        );
        if !self.is_offered() {
            words += " (not offered)";
        }
        for row in [0, 1].into_iter().filter(|&row| self.cell.stands_in(row)) {
            words += &self.heights_in_words(row);
        }
        words + &format!("; {}", self.given_in_words())
    }

    /// `given 9`, or `fixed at site 9`.
    fn given_in_words(&self) -> String {
        let given = self.cell.given;
        match self.cell.fixed {
            true => format!("fixed at site {given}"),
            false => format!("given {given}"),
        }
    }

    /// `; row 0: left P 1 N 2, right P 3 N 4`, as it stands.
    fn heights_in_words(&self, row: u32) -> String {
        let Some([left, right]) = self.edges(row) else {
            return String::new();
        };
        let sides = format!(
            "left P {} N {}, right P {} N {}",
            left.p, left.n, right.p, right.n
        );
        if self.cell.is_tall() {
            format!("; row {row}: {sides}")
        } else {
            format!("; {sides}")
        }
    }
}

#[cfg(test)]
mod tests {
    use super::*;
    use crate::board::Board;
    use crate::explain::{read_job, read_placement};

    /// Looks at the only cell of a job.
    fn look<Seen>(cell: &str, pose: &str, look: impl Fn(&Stand) -> Seen) -> Seen {
        let job = format!("J,2,20,3,1,1,1,1,1\n{cell}\n");
        let job = read_job(job.as_bytes()).expect("a job in form");
        let poses = read_placement(format!("{pose}\n").as_bytes(), 1).expect("a pose in form");
        look(&Board::of(&job, &poses).stands[0])
    }

    #[test]
    fn a_mark_exchanges_left_and_right() {
        look("C,2,9,1,1,2,1,2,3,4,5,6,7,8", "8,0,1", |stand| {
            assert_eq!(
                stand.words(),
                "cell 1: rows 0 and 1, site 8, width 2, layout 0, mark 1; row 0: left P 3 N 4, right P 1 N 2; \
                 row 1: left P 7 N 8, right P 5 N 6; given 9"
            );
            assert!(stand.is_offered() && stand.is_mirrored() && !stand.is_changed());
        });
    }

    #[test]
    fn what_is_not_offered_is_drawn_as_wide_as_it_was_given() {
        look("C,0,9,0,1,4,1,2,3,4", "8,7,0", |stand| {
            assert!(!stand.is_offered());
            assert_eq!((stand.width(), stand.end(), stand.edges(0)), (4, 12, None));
        });
        let offered = |cell, pose| look(cell, pose, |stand| stand.is_offered());
        assert!(!offered("C,0,9,0,1,4,1,2,3,4", "8,0,1"));
        assert!(!offered("C,0,9,1,1,4,1,2,3,4", "8,0,2"));
    }

    #[test]
    fn a_fixed_cell_is_offered_layout_0_and_mark_0() {
        let cell = "F,0,9,1,2,4,1,2,3,4,5,1,2,3,4";
        let offered = |pose| look(cell, pose, |stand| stand.is_offered());
        assert_eq!(
            ["9,0,0", "9,1,0", "9,0,1"].map(offered),
            [true, false, false]
        );
        look(cell, "9,1,0", |stand| {
            assert_eq!(
                stand.words(),
                "cell 1: row 0, site 9, width 5, layout 1, mark 0 (not offered); \
                 left P 1 N 2, right P 3 N 4; fixed at site 9"
            );
        });
    }
}
