//! One task: its job read, answered or taken over, and its answer written.

use super::failure::Failure;
use super::memory::take_store;
use super::task::Task;
use super::{earlier, files};
use crate::draw::draw;
use crate::{score, Numbers, Refined, Refiner, RefusalKind, Refused, Verdict};

/// What came of a task.
#[derive(Clone, Copy, Debug, PartialEq, Eq)]
pub struct Done {
    /// What Place says of the job.
    pub placed: Result<Numbers, Refused>,
    /// What Score says of the placement beside the job, if one stands there and Read takes the job.
    pub theirs: Option<Result<Verdict, Refused>>,
    /// Whether the answer is that of an earlier run.
    pub taken_over: bool,
}

impl Done {
    /// What the cheapest placement saves of the cost of the one beside the job, if that is legal.
    pub fn saved(&self) -> Option<i64> {
        match (self.placed, self.theirs?.ok()?) {
            (Ok(cheapest), Verdict::Legal(theirs)) => {
                Some(i64::from(theirs.cost) - i64::from(cheapest.cost))
            }
            _ => None,
        }
    }
}

/// Does a task: its output holds what `refine` prints of the job.
pub(super) fn done(task: &Task, refiner: &mut Refiner) -> Result<Done, Failure> {
    let job = files::read(&task.job)?;
    let placement = files::read_if_there(&task.placement)?;
    let (placed, taken_over) = match earlier::answer(task, &job) {
        Some(placed) => (placed, true),
        None => (place_anew(task, &job, refiner)?, false),
    };
    let theirs = placement.as_ref().map(|placement| score(&job, placement));
    let theirs = theirs.filter(|theirs| !is_of_job(theirs));
    if let Some(picture) = &task.picture {
        let shown = placement.filter(|_| matches!(theirs, Some(Ok(_))));
        // A job that Read refuses has no picture.
        if let Ok(drawn) = draw(&job, shown.as_deref(), true) {
            files::write(picture, drawn.as_bytes())?;
        }
    }
    Ok(Done {
        placed,
        theirs,
        taken_over,
    })
}

/// Places a job and writes the answer.
fn place_anew(
    task: &Task,
    job: &[u8],
    refiner: &mut Refiner,
) -> Result<Result<Numbers, Refused>, Failure> {
    take_store(refiner, job).map_err(|bytes| Failure::no_store(&task.job, bytes))?;
    let (placed, text) = match refiner.place(job) {
        Ok(answer) => (Ok(answer.numbers()), text_of(&answer.to_refined())),
        Err(refused) => (Err(refused), format!("{}\n", refused.fields()).into()),
    };
    files::write(&task.output, &text)?;
    Ok(placed)
}

/// An answer as `refine` prints it.
fn text_of(refined: &Refined) -> Vec<u8> {
    let mut text = format!("{}\n", refined.numbers.fields()).into_bytes();
    text.extend_from_slice(&refined.text);
    text
}

/// Whether it is the job that Score refuses.
fn is_of_job(theirs: &Result<Verdict, Refused>) -> bool {
    theirs.is_err_and(|refused| refused.kind() != RefusalKind::Placement)
}
