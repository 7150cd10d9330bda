//! A row from left to right: its gaps, the steps between neighbours, and where cells overlap.

use crate::board::{Board, Stand};
use crate::desk::{self, is_charged, steps_between, Step, FORBIDDEN};

pub struct Row {
    pub number: u32,
    pub gaps: Vec<Gap>,
    pub steps: Vec<StepMark>,
    pub overlaps: Vec<Span>,
}

/// Sites from one on and before an end.
#[derive(Clone, Copy, Debug, PartialEq, Eq)]
pub struct Span {
    pub from: u32,
    pub end: u32,
}

impl Span {
    pub fn sites(&self) -> u32 {
        self.end - self.from
    }

    pub fn meets(&self, other: &Span) -> bool {
        self.from < other.end && other.from < self.end
    }
}

/// Empty sites between neighbours, or at an end of the row.
#[derive(Clone, Copy, Debug, PartialEq, Eq)]
pub struct Gap {
    pub span: Span,
    pub kind: GapKind,
}

#[derive(Clone, Copy, Debug, PartialEq, Eq)]
pub enum GapKind {
    /// One site between neighbours or at an end: nothing fits in.
    OneSite,
    /// Two or three sites between neighbours: a filler fits in, and steps count.
    Charged,
    /// Four sites or more between neighbours: fillers fit in, and steps do not count.
    Free,
    /// Two sites or more at an end.
    End,
}

/// A step and where its mark stands.
#[derive(Clone, Copy, Debug, PartialEq, Eq)]
pub struct StepMark {
    pub step: Step,
    /// The sites between the cells: none if they abut.
    pub gap: Span,
    /// The left and the right cell's facing heights.
    pub heights: [u32; 2],
}

impl Row {
    /// A row of a placement.
    pub fn of(number: u32, board: &Board) -> Row {
        let sites = board.header.sites;
        let neighbours = board.neighbours(number).into_iter();
        let gaps = neighbours.filter_map(|sides| desk::Gap::between(sides, sites));
        let pairs = || board.pairs(number);
        Row {
            number,
            gaps: gaps.filter_map(|gap| Gap::of(&gap, sites)).collect(),
            steps: pairs()
                .flat_map(|(left, right)| step_marks(left, right, number))
                .collect(),
            overlaps: pairs()
                .filter_map(|(left, right)| overlap(left, right))
                .collect(),
        }
    }

    /// Whether cells share some of these sites.
    pub fn shares(&self, sites: &Span) -> bool {
        self.overlaps.iter().any(|overlap| overlap.meets(sites))
    }
}

impl Gap {
    /// A gap as far as it is in a row of so many sites. A row without cells is one gap, which is
    /// not drawn.
    fn of(gap: &desk::Gap, sites: u32) -> Option<Gap> {
        let (from, end) = (gap.site, sites.min(gap.site + gap.width));
        if from >= end || gap.left.or(gap.right).is_none() {
            return None;
        }
        let span = Span { from, end };
        let kind = match (gap.left.zip(gap.right), gap.width) {
            (Some(_), FORBIDDEN) => GapKind::OneSite,
            (Some(_), width) if is_charged(width) => GapKind::Charged,
            (Some(_), _) => GapKind::Free,
            (None, _) if span.sites() == FORBIDDEN => GapKind::OneSite,
            (None, _) => GapKind::End,
        };
        Some(Gap { span, kind })
    }
}

fn step_marks(left: &Stand, right: &Stand, row: u32) -> Vec<StepMark> {
    let (from, end) = (left.end(), right.pose.site);
    let gap = Span { from, end };
    let steps = steps_between(left, right, row).into_iter();
    let mark = |(step, heights)| StepMark { step, gap, heights };
    steps.map(mark).collect()
}

/// The sites that neighbours share.
fn overlap(left: &Stand, right: &Stand) -> Option<Span> {
    let (from, end) = (right.pose.site, right.end().min(left.end()));
    (from < end).then_some(Span { from, end })
}

#[cfg(test)]
mod tests {
    use super::*;
    use crate::desk::Diffusion;
    use crate::explain::{read_job, read_placement};

    /// Cells of width 2, all with heights 1, 1 on the left and 2, 3 on the right, in a row of 20.
    fn row(sites: &[u32]) -> Row {
        let cell = "C,0,0,1,1,2,1,1,2,3\n".repeat(sites.len());
        let job = read_job(format!("J,1,20,3,1,1,1,1,1\n{cell}").as_bytes());
        let job = job.expect("a job in form");
        let lines: String = sites.iter().map(|site| format!("{site},0,0\n")).collect();
        let poses = read_placement(lines.as_bytes(), sites.len());
        Row::of(0, &Board::of(&job, &poses.expect("poses in form")))
    }

    fn gaps(row: &Row) -> Vec<(u32, u32, GapKind)> {
        let told = |gap: &Gap| (gap.span.from, gap.span.end, gap.kind);
        row.gaps.iter().map(told).collect()
    }

    #[test]
    fn steps_count_at_gaps_0_2_and_3() {
        for (gap, steps) in [(0, 2), (1, 0), (2, 2), (3, 2), (4, 0)] {
            let row = row(&[5, 7 + gap]);
            assert_eq!(row.steps.len(), steps, "gap {gap}");
        }
        let [p, n] = row(&[5, 9]).steps[..] else {
            panic!("two steps")
        };
        assert_eq!((p.step.diffusion, p.heights), (Diffusion::P, [2, 1]));
        assert_eq!((n.step.diffusion, n.heights), (Diffusion::N, [3, 1]));
        assert_eq!((p.step.left, p.step.right), (1, 2));
        assert_eq!(p.gap, Span { from: 7, end: 9 });
    }

    #[test]
    fn gaps_are_told_by_their_width() {
        use GapKind::{Charged, End, Free, OneSite};
        assert_eq!(
            gaps(&row(&[0, 3, 7, 13])),
            [
                (2, 3, OneSite),
                (5, 7, Charged),
                (9, 13, Free),
                (15, 20, End)
            ]
        );
        assert_eq!(
            gaps(&row(&[1, 17])),
            [(0, 1, OneSite), (3, 17, Free), (19, 20, OneSite)]
        );
        assert_eq!(gaps(&row(&[])), []);
        assert_eq!(gaps(&row(&[25, 30])), [(0, 20, End)]);
    }

    #[test]
    fn an_overlap_has_the_sites_that_two_cells_share() {
        let row = row(&[4, 5, 9]);
        assert_eq!(row.overlaps, [Span { from: 5, end: 6 }]);
        assert_eq!(row.steps.len(), 2);
    }
}
