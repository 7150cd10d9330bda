//! The way back from the cheapest end.

use super::super::job::Job;
use super::super::placement::{Placement, Pose};
use super::lines::Row;
use super::stage::{Source, Sources};
use super::stretch::{Layer, Start, Stretch};
use super::{Board, NONE};

/// A cell in one row: its file place there, its pair and its pose.
#[derive(Clone, Copy)]
struct Stop {
    place: usize,
    pair: usize,
    pose: usize,
}

/// Walks back from the case of the last tall cell, stage by stage, and writes each cell's pose. None
/// if there is no way back, which can only be where there is no tall cell.
pub fn trace<const L: usize>(
    job: &Job,
    board: &Board,
    tables: &[Sources<L>],
    last: Option<Source>,
) -> Option<Placement> {
    let mut placement = vec![Pose::default(); job.cells.len()];
    let pairs = board.pairs.list.len();
    let mut right: Option<Source> = None;
    let mut left = last;
    for tall in (0..=tables.len()).rev() {
        for (at, row) in board.rows.iter().enumerate() {
            let stop = |case: Source, tall: usize| {
                let place = row.tall[tall];
                Stop {
                    place,
                    pair: case.pairs[at].into(),
                    pose: row.lines[place].poses[usize::from(case.lane)],
                }
            };
            let from = left.map(|case| stop(case, tall - 1));
            let to = right.map(|case| stop(case, tall));
            walk(board, row, from, to, &mut placement)?;
        }
        right = left;
        left = match left {
            Some(case) if tall >= 2 => {
                let [pair_0, pair_1] = case.pairs.map(usize::from);
                let sources = &tables[tall - 1][pair_0 * pairs + pair_1];
                Some(sources[usize::from(case.lane)])
            }
            _ => None,
        };
    }
    Some(placement)
}

/// Runs one stretch again with all its layers kept, and writes the poses of its cells, and of the
/// tall cell at its right end, from right to left.
fn walk(
    board: &Board,
    row: &Row,
    from: Option<Stop>,
    to: Option<Stop>,
    placement: &mut [Pose],
) -> Option<()> {
    let poses = from.map_or([0], |stop| [stop.pose]);
    let mut stretch = Stretch::<1>::new(board, row);
    stretch.begin(match from {
        None => Start::Edge,
        Some(Stop { place, pair, .. }) => Start::Tall {
            place,
            pair,
            poses: &poses,
        },
    });
    let cells_to = |stop: Stop| board.pairs.cells_at(stop.place, stop.pair).unwrap_or(0);
    let end = to.map_or(row.lines.len(), |stop| cells_to(stop).saturating_sub(1));
    let mut layers = Vec::new();
    while stretch.layer.cells < end {
        stretch.advance(None);
        layers.push(stretch.layer.clone());
    }
    let mut write = |stop: Stop| {
        let line = &row.lines[stop.place];
        placement[line.cell] = line.pose(stop.pose);
    };
    to.into_iter().for_each(&mut write);
    let mut right = to;
    for layer in layers.iter().rev() {
        let stop = source(board, row, layer, right)?;
        write(stop);
        right = Some(stop);
    }
    Some(())
}

/// The last cell of a layer from which the next cell, or the row's end, is reached at the least
/// charge.
fn source(board: &Board, row: &Row, layer: &Layer<1>, right: Option<Stop>) -> Option<Stop> {
    let pairs = &board.pairs;
    let marks = right.map_or(pairs.closed, |stop| pairs.list[stop.pair].before);
    let between = |place: usize, pose: usize| {
        let line = row.lines.get(place)?;
        match right {
            None => line.may_close(pose).then_some(0.0),
            Some(stop) => line.between(pose, &row.lines[stop.place], stop.pose, board.step),
        }
    };
    let mut least = NONE;
    let mut best = None;
    for (pair, block) in layer.blocks.iter().enumerate() {
        let place = pairs.place_at(layer.cells, pair);
        let Some(place) = place.filter(|_| pairs.list[pair].marks == marks) else {
            continue;
        };
        for (pose, &[charge]) in block.rows(&layer.rows) {
            let charge = charge + between(place, pose).unwrap_or(NONE);
            if charge < least {
                least = charge;
                best = Some(Stop { place, pair, pose });
            }
        }
    }
    best
}
