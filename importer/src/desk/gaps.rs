//! The gaps of each row: between neighbours, and at the row's ends.

use super::Fillers;
use crate::board::{Board, Sides, Stand};
use crate::explain::{read_job, read_placement};

/// The widths that gaps are counted by: each by itself, and from the last one on all together.
/// Gaps of one site cannot be closed and are told one by one.
pub const WIDTHS: [u32; 4] = [0, 2, 3, 4];

/// The gap that is forbidden: no filler closes it.
pub(crate) const FORBIDDEN: u32 = 1;

/// Whether steps count at a gap: below four sites, but not at the one that is forbidden.
pub(crate) fn is_charged(gap: u32) -> bool {
    gap < 4 && gap != FORBIDDEN
}

/// Empty sites between two cells, or between one and the row's end.
#[derive(Clone, Copy, Debug, PartialEq, Eq)]
pub struct Gap {
    /// Its first site.
    pub site: u32,
    /// How many sites it has: 0 where two cells touch.
    pub width: u32,
    /// The cell on its left, counted from 1; none at the row's start.
    pub left: Option<u32>,
    /// The cell on its right; none at the row's end.
    pub right: Option<u32>,
}

impl Gap {
    /// What is between neighbours in a row of so many sites; none if they overlap, or if the last
    /// cell ends past the row.
    pub(crate) fn between([left, right]: Sides, sites: u32) -> Option<Gap> {
        let site = left.map_or(0, Stand::end);
        let end = right.map_or(sites, |right| right.pose.site);
        let number = |stand: &Stand| stand.number;
        Some(Gap {
            site,
            width: end.checked_sub(site)?,
            left: left.map(number),
            right: right.map(number),
        })
    }

    /// The fewest fillers that close it.
    pub fn fillers(&self) -> Option<Fillers> {
        Fillers::closing(self.width)
    }
}

/// Why the gaps of a row cannot be told, and the first cell from the left for which that is so.
#[derive(Clone, Copy, Debug, PartialEq, Eq)]
pub struct Untold {
    /// That cell, counted from 1.
    pub cell: u32,
    /// The reason, in words.
    pub reason: &'static str,
}

/// A row of a placement.
#[derive(Clone, Debug, PartialEq, Eq)]
pub struct RowGaps {
    /// 0 or 1.
    pub row: u32,
    /// How many sites it has.
    pub sites: u32,
    /// How many cells stand in it.
    pub cells: usize,
    /// From left to right: before the first cell, between neighbours, behind the last. A row
    /// without cells has one gap, from end to end.
    pub gaps: Result<Vec<Gap>, Untold>,
}

/// How many gaps of a row have one of the [`WIDTHS`], and what closes them.
#[derive(Clone, Copy, Debug, Default, PartialEq, Eq)]
pub struct Tally {
    /// Those before the row's first cell.
    pub left_end: u32,
    /// Those between neighbours.
    pub between: u32,
    /// Those behind the row's last cell.
    pub right_end: u32,
    /// What closes all of them.
    pub fillers: Fillers,
}

/// The gaps of each row of a placement; none if one of the texts is refused.
pub fn gaps(job: &[u8], placement: &[u8]) -> Option<Vec<RowGaps>> {
    let job = read_job(job).ok()?;
    let poses = read_placement(placement, job.cells.len()).ok()?;
    let board = Board::of(&job, &poses);
    let sites = job.header.sites;
    let row_gaps = |row| {
        let neighbours = board.neighbours(row).into_iter();
        RowGaps {
            row,
            sites,
            cells: board.row(row).count(),
            gaps: neighbours.map(|sides| gap_of(sides, sites)).collect(),
        }
    };
    Some((0..job.header.rows).map(row_gaps).collect())
}

/// The gap between neighbours of which all further left are told.
fn gap_of([left, right]: Sides, sites: u32) -> Result<Gap, Untold> {
    let cell = right.or(left).map_or(0, |stand| stand.number);
    let untold = |reason| Untold { cell, reason };
    match right {
        Some(stand) if stand.layout().is_none() => Err(untold("choice not offered")),
        Some(stand) if stand.end() > sites => Err(untold("outside row")),
        _ => Gap::between([left, right], sites).ok_or(untold("overlap")),
    }
}

impl RowGaps {
    /// The row's gaps by their width, if they can be told.
    pub fn tallies(&self) -> Result<[Tally; WIDTHS.len()], Untold> {
        let mut tallies = [Tally::default(); WIDTHS.len()];
        for gap in self.gaps.as_ref().map_err(|untold| *untold)? {
            let Some(fillers) = gap.fillers() else {
                continue;
            };
            let at = WIDTHS.iter().rposition(|width| gap.width >= *width);
            let tally = &mut tallies[at.unwrap_or_default()];
            tally.fillers += fillers;
            match (gap.left, gap.right) {
                (Some(_), Some(_)) => tally.between += 1,
                (left, right) => {
                    tally.left_end += u32::from(left.is_none());
                    tally.right_end += u32::from(right.is_none());
                }
            }
        }
        Ok(tallies)
    }

    /// The gaps that no filler closes.
    pub fn open(&self) -> impl Iterator<Item = &Gap> {
        let gaps = self.gaps.iter().flatten();
        gaps.filter(|gap| gap.fillers().is_none())
    }
}

#[cfg(test)]
mod tests {
    use super::*;
    use crate::RULES;

    const CELL: &str = "C,0,4,0,1,2,1,1,1,1\n";

    /// The only row of two cells of two sites, in a row of ten.
    fn row(placement: &str) -> RowGaps {
        let job = format!("J,1,10,7,1,1,1,1,1\n{CELL}{CELL}");
        let rows = gaps(job.as_bytes(), placement.as_bytes());
        let [row] = <[RowGaps; 1]>::try_from(rows.expect("texts in form")).expect("one row");
        row
    }

    fn found(placement: &str) -> Vec<(u32, u32)> {
        let gaps = row(placement).gaps.expect("cells that stand apart");
        gaps.iter().map(|gap| (gap.site, gap.width)).collect()
    }

    #[test]
    fn from_left_to_right() {
        assert_eq!(found("0,0,0\n8,0,0\n"), [(0, 0), (2, 6), (10, 0)]);
        assert_eq!(found("5,0,0\n2,0,0\n"), [(0, 2), (4, 1), (7, 3)]);
    }

    #[test]
    fn a_single_site_is_open_with_its_sides() {
        let row = row("1,0,0\n7,0,0\n");
        let sides: Vec<_> = row.open().map(|gap| (gap.left, gap.right)).collect();
        assert_eq!(sides, [(None, Some(1)), (Some(2), None)]);
    }

    #[test]
    fn rows_that_cannot_be_told() {
        let why = |placement| row(placement).gaps.expect_err("no row to draw");
        let untold = |cell, reason| Untold { cell, reason };
        assert_eq!(why("4,0,0\n5,0,0\n"), untold(2, "overlap"));
        assert_eq!(why("4,1,0\n6,0,0\n"), untold(1, "choice not offered"));
        assert_eq!(why("4,0,0\n9,0,0\n"), untold(2, "outside row"));
        // A sentence on such a placement says the same.
        for reason in ["overlap", "choice not offered", "outside row"] {
            assert!(RULES.iter().any(|rule| rule.phrase == reason), "{reason}");
        }
    }

    #[test]
    fn refused_texts_have_none() {
        assert_eq!(gaps(b"", b""), None);
        assert_eq!(gaps(b"J,1,10,7,1,1,1,1,1\n", b"0,0,0\n"), None);
    }
}
