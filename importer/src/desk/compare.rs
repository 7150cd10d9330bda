//! A placement beside the cheapest one.

use super::{steps, RawPose, Step};
use crate::explain::{read_job, read_placement, Cell};
use crate::{Numbers, Refined, Verdict};

/// A cell that stands otherwise in the cheapest placement.
#[derive(Clone, Copy, Debug, PartialEq, Eq)]
pub struct Change {
    /// Counted from 1.
    pub cell: u32,
    /// Whether it is fixed: then the placement, which has it otherwise, breaks rule 1 or 3.
    pub fixed: bool,
    /// How it stands in the placement.
    pub theirs: RawPose,
    /// How it stands in the cheapest.
    pub cheapest: RawPose,
}

/// What becomes of the steps of a legal placement.
#[derive(Clone, Debug, Default, PartialEq, Eq)]
pub struct StepChanges {
    /// How many both have.
    pub kept: usize,
    /// Those that the cheapest does not have.
    pub gone: Vec<Step>,
    /// Those that only the cheapest has.
    pub new: Vec<Step>,
}

/// A placement beside the cheapest one, by what the refiner says of both.
#[derive(Clone, Debug, PartialEq, Eq)]
pub struct Comparison {
    /// What Score says of the placement.
    pub theirs: Verdict,
    /// Place's numbers.
    pub cheapest: Numbers,
    /// The cells that stand otherwise, in file order.
    pub cells: Vec<Change>,
    /// None if the placement is not legal.
    pub steps: Option<StepChanges>,
}

impl Comparison {
    /// Compares two placements of a job: one with Score's verdict on it, and Place's own.
    pub fn of(job: &[u8], placement: &[u8], theirs: Verdict, cheapest: &Refined) -> Comparison {
        let steps = match &theirs {
            Verdict::Legal(numbers) => {
                let before = steps(job, placement, numbers);
                let after = steps(job, &cheapest.text, &cheapest.numbers);
                before.zip(after).map(StepChanges::between)
            }
            Verdict::Broken(_) => None,
        };
        Comparison {
            theirs,
            cheapest: cheapest.numbers,
            cells: changes(job, placement, &cheapest.text).unwrap_or_default(),
            steps,
        }
    }

    /// How much more the placement costs than the cheapest; none if it is not legal.
    pub fn lost(&self) -> Option<u32> {
        match self.theirs {
            Verdict::Legal(numbers) => {
                debug_assert!(numbers.cost >= self.cheapest.cost, "{self:?}");
                Some(numbers.cost.saturating_sub(self.cheapest.cost))
            }
            Verdict::Broken(_) => None,
        }
    }
}

impl StepChanges {
    /// A step that stays at another gap is kept.
    fn between((before, after): (Vec<Step>, Vec<Step>)) -> StepChanges {
        let stays = |step: &Step| after.iter().any(|other| step.is_that(other));
        let was = |step: &Step| before.iter().any(|other| step.is_that(other));
        let (kept, gone): (Vec<Step>, Vec<Step>) = before.iter().partition(|step| stays(step));
        let new: Vec<Step> = after.iter().filter(|step| !was(step)).copied().collect();
        debug_assert_eq!(kept.len() + new.len(), after.len());
        StepChanges {
            kept: kept.len(),
            gone,
            new,
        }
    }
}

/// The cells whose poses differ, in file order.
fn changes(job: &[u8], theirs: &[u8], cheapest: &[u8]) -> Option<Vec<Change>> {
    let job = read_job(job).ok()?;
    let theirs = read_placement(theirs, job.cells.len()).ok()?;
    let cheapest = read_placement(cheapest, job.cells.len()).ok()?;
    let poses = theirs.into_iter().zip(cheapest);
    let cells = (1..).zip(&job.cells).zip(poses);
    let change =
        |((number, cell), (theirs, cheapest)): ((u32, &Cell), (RawPose, RawPose))| Change {
            cell: number,
            fixed: cell.fixed,
            theirs,
            cheapest,
        };
    let differs = |change: &Change| change.theirs != change.cheapest;
    Some(cells.map(change).filter(differs).collect())
}
