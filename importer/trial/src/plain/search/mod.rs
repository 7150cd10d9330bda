//! The cheapest legal placement, by stages over the tall cells.
//!
//! A row from left to right is a list of cells in which each stands at most R places from its
//! place in file order. After i cells the state of a row is which cells of a small window are
//! placed and which of them is the last (a [`pairs::Pair`]), and the last one's pose. Between two
//! tall cells a row is a stretch of single cells (`stretch`, `gathered`, `block`); the rows meet at
//! the tall cells, so a case of a tall cell is its pose and its pair in each row (`stage`, `join`,
//! `tables`). A row's first cell must be one that may open it, and its last one that may close it,
//! by rule 8 (`lines`). `trace` walks back from the cheapest end.
//!
//! Most states are dead at once, since cells move little: rows of charges stand only for poses that
//! are reached, and only these are looked at.

mod block;
mod gathered;
mod join;
mod lines;
pub mod pairs;
mod stage;
mod stretch;
mod tables;
mod trace;

use super::job::Job;
use super::placement::Placement;
use lines::Row;
use pairs::Pairs;
use tables::{cheapest_end, tables};
use trace::trace;

/// A charge is a whole number. Even the dearest placement costs less than 2^20, so that an `f32`
/// holds every sum exactly; and of these a processor finds the lesser, in several lanes at once, by
/// one instruction.
type Charge = f32;

/// Stands for "there is none", whatever is added to it.
const NONE: Charge = Charge::INFINITY;

/// What a step charges, by its gap (A7).
#[derive(Clone, Copy)]
struct Step {
    /// Between cells that touch.
    touching: Charge,
    /// At gaps 2 and 3.
    filled: Charge,
}

/// What every part of the search looks at.
struct Board {
    rows: [Row; 2],
    pairs: Pairs,
    step: Step,
}

impl Board {
    fn of(job: &Job) -> Board {
        let step = Step {
            touching: job.weights.step.into(),
            filled: job.weights.of_filled().into(),
        };
        Board {
            rows: [0, 1].map(|row| Row::of(job, row)),
            pairs: Pairs::of(job.reordering.into()),
            step,
        }
    }

    /// How many poses a tall cell has at most.
    fn lanes(&self) -> usize {
        let tall = self.rows[0].lines.iter().filter(|line| line.tall);
        tall.map(|line| line.poses.len()).max().unwrap_or(0)
    }
}

/// A cheapest legal placement, if there is a legal one.
pub fn cheapest(job: &Job) -> Option<Placement> {
    let board = Board::of(job);
    // A row of lanes has one for each pose of the tall cell that it starts from.
    match board.lanes() {
        0..=16 => cheapest_with::<16>(job, &board),
        17..=32 => cheapest_with::<32>(job, &board),
        _ => cheapest_with::<64>(job, &board),
    }
}

fn cheapest_with<const L: usize>(job: &Job, board: &Board) -> Option<Placement> {
    match tables::<L>(board) {
        Some((cases, sources)) => {
            let last = cheapest_end(board, &cases)?;
            trace(job, board, &sources, Some(last))
        }
        None => trace::<L>(job, board, &[], None),
    }
}
