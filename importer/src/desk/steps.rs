//! The steps of a legal placement, one by one.

use super::gaps::is_charged;
use crate::board::{Board, Stand};
use crate::explain::{read_job, read_placement, Edge};
use crate::Numbers;
use std::fmt;

/// Which transistors' diffusion.
#[derive(Clone, Copy, Debug, PartialEq, Eq)]
pub enum Diffusion {
    /// That of p-type transistors.
    P,
    /// That of n-type transistors.
    N,
}

impl Diffusion {
    /// Its height at an edge.
    pub(crate) fn height(self, edge: Edge) -> u32 {
        match self {
            Diffusion::P => edge.p,
            Diffusion::N => edge.n,
        }
    }
}

impl fmt::Display for Diffusion {
    fn fmt(&self, out: &mut fmt::Formatter<'_>) -> fmt::Result {
        out.write_str(match self {
            Diffusion::P => "P",
            Diffusion::N => "N",
        })
    }
}

/// Neighbours in a row whose facing heights differ, at a gap that is charged.
#[derive(Clone, Copy, Debug, PartialEq, Eq)]
pub struct Step {
    /// The row in which they are neighbours, 0 or 1.
    pub row: u32,
    /// The cell on the left, counted from 1.
    pub left: u32,
    /// The cell on the right.
    pub right: u32,
    /// Whose heights differ.
    pub diffusion: Diffusion,
    /// How many sites are between them.
    pub gap: u32,
}

impl Step {
    /// Whether it is a filled step, one at a gap of 2 or 3 sites: there are others at gap 0 alone.
    pub fn is_filled(&self) -> bool {
        self.gap > 0
    }

    /// Whether it is between the same heights of the same cells, at whatever gap.
    pub fn is_that(&self, other: &Step) -> bool {
        let gap = other.gap;
        Step { gap, ..*self } == *other
    }
}

/// The steps of a legal placement by row and from left to right; none if they, or the filled ones
/// among them, are not as many as the refiner counts.
pub fn steps(job: &[u8], placement: &[u8], numbers: &Numbers) -> Option<Vec<Step>> {
    let job = read_job(job).ok()?;
    let poses = read_placement(placement, job.cells.len()).ok()?;
    let board = Board::of(&job, &poses);
    let mut steps = Vec::new();
    for row in 0..job.header.rows {
        for (left, right) in board.pairs(row) {
            let between = steps_between(left, right, row).into_iter();
            steps.extend(between.map(|(step, _)| step));
        }
    }
    let counted = are_counted(&steps, numbers);
    debug_assert!(counted, "{steps:?} of {numbers}");
    counted.then_some(steps)
}

/// Whether the refiner counts as many steps.
fn are_counted(steps: &[Step], numbers: &Numbers) -> bool {
    let filled = steps.iter().filter(|step| step.is_filled()).count();
    let is_filled = |counted: u32| counted as usize == filled;
    numbers.steps as usize == steps.len() && numbers.filled.map_or(true, is_filled)
}

/// The steps of two neighbours of a row, each with the heights of the left and of the right cell.
pub(crate) fn steps_between(left: &Stand, right: &Stand, row: u32) -> Vec<(Step, [u32; 2])> {
    let gap = right.pose.site.checked_sub(left.end());
    let gap = gap.filter(|gap| is_charged(*gap));
    let edges = left.edges(row).zip(right.edges(row));
    let (Some(gap), Some(([_, of_left], [of_right, _]))) = (gap, edges) else {
        return Vec::new();
    };
    let step = |diffusion: Diffusion| {
        let heights = [of_left, of_right].map(|edge| diffusion.height(edge));
        let step = Step {
            row,
            left: left.number,
            right: right.number,
            diffusion,
            gap,
        };
        (heights[0] != heights[1]).then_some((step, heights))
    };
    let both = [Diffusion::P, Diffusion::N].into_iter();
    both.filter_map(step).collect()
}

#[cfg(test)]
mod tests {
    use super::*;
    use crate::{score, Verdict};

    /// A tall cell between two cells of row 1 and behind one of row 0.
    const JOB: &[u8] = b"J,2,20,7,1,1,1,1,1
C,0,0,1,1,4,1,2,3,4
C,1,0,0,1,3,5,5,5,5
C,2,6,1,1,2,3,9,1,1,5,5,6,6
C,1,11,0,2,3,6,7,1,1,4,7,6,1,1
";

    fn found(placement: &[u8]) -> Vec<String> {
        let Ok(Verdict::Legal(numbers)) = score(JOB, placement) else {
            panic!("the placement is legal");
        };
        let steps = steps(JOB, placement, &numbers).expect("the refiner counts as many");
        let line = |step: &Step| {
            let Step {
                row, left, right, ..
            } = step;
            format!("{row}: {left} {right} {} {}", step.diffusion, step.gap)
        };
        steps.iter().map(line).collect()
    }

    #[test]
    fn at_gaps_that_are_charged() {
        // Right of cell 1 stand 3 and 4, left of the tall cell 3 and 9; in row 1 the tall cell's
        // right side has 6 and 6, and cell 4 begins with 6 and 7.
        let steps = found(b"0,0,0\n0,0,0\n6,0,0\n11,0,0\n");
        assert_eq!(steps, ["0: 1 3 N 2", "1: 3 4 N 3"]);
    }

    #[test]
    fn of_mirrored_cells_and_second_layouts() {
        // Cell 1 ends with 1 and 2, the tall cell mirrored begins with 1 and 1 in row 0, and in
        // row 1 it has 6 and 6 on its left and 5 and 5 on its right. Layout 1 begins with 7 and 6.
        let steps = found(b"0,0,1\n0,0,0\n6,0,1\n11,1,0\n");
        let expected = [
            "0: 1 3 N 2",
            "1: 2 3 P 3",
            "1: 2 3 N 3",
            "1: 3 4 P 3",
            "1: 3 4 N 3",
        ];
        assert_eq!(steps, expected);
    }

    /// One step at gap 0, one at gap 2: a count of another kind is not agreed to.
    #[test]
    fn filled_ones_are_counted_too() {
        let job = b"K,1,14,0,0,7,7,7,7,1\n\
                    C,0,0,0,1,4,1,1,1,2\n\
                    C,0,4,0,1,4,1,1,1,2\n\
                    C,0,10,0,1,4,1,1,1,2\n";
        let placement = b"0,0,0\n4,0,0\n10,0,0\n";
        let Ok(Verdict::Legal(numbers)) = score(job, placement) else {
            panic!("the placement is legal");
        };
        assert_eq!((numbers.steps, numbers.filled), (2, Some(1)));
        let steps = steps(job, placement, &numbers).expect("the refiner counts as many");
        let filled: Vec<bool> = steps.iter().map(Step::is_filled).collect();
        assert_eq!(filled, [false, true]);
        for (steps_counted, filled, agrees) in [
            (2, Some(1), true),
            (2, None, true),
            (2, Some(2), false),
            (2, Some(0), false),
            (3, Some(1), false),
        ] {
            let counted = Numbers {
                steps: steps_counted,
                filled,
                ..numbers
            };
            assert_eq!(are_counted(&steps, &counted), agrees, "{counted}");
        }
    }

    #[test]
    fn none_from_gap_4_on() {
        assert_eq!(found(b"0,0,0\n0,0,0\n8,0,0\n14,0,0\n"), [""; 0]);
    }
}
