//! The cases of all tall cells, and the cheapest end.

use super::join::join;
use super::lines::Row;
use super::stage::{Cases, Prices, Source, Sources};
use super::stretch::{Start, Stretch};
use super::{Board, NONE};

/// The cases of the last tall cell, and the sources of those of each tall cell; none if there is no
/// tall cell.
pub fn tables<const L: usize>(board: &Board) -> Option<(Cases<L>, Vec<Sources<L>>)> {
    let [row_0, _] = &board.rows;
    let line = |tall: usize| &row_0.lines[row_0.tall[tall]];
    if row_0.tall.is_empty() {
        return None;
    }
    let opening = board.rows.each_ref().map(|row| opening(board, row));
    let (mut cases, sources) = join(&Cases::edge(), &opening, line(0));
    let mut tables = vec![sources];
    let rows = board.rows.each_ref();
    let mut stretches = rows.map(|row| Stretch::<L>::new(board, row));
    let mut prices = [0, 1].map(|_| Prices::<L>::new(board, board.pairs.list.len()));
    for tall in 1..row_0.tall.len() {
        for row in 0..2 {
            let starts = live_starts(board, &cases, row, tall - 1);
            let place = board.rows[row].tall[tall];
            prices[row].fill(&mut stretches[row], starts, place);
        }
        let (next, sources) = join(&cases, &prices, line(tall));
        cases = next;
        tables.push(sources);
    }
    Some((cases, tables))
}

/// The prices from a row's start to its first tall cell.
fn opening(board: &Board, row: &Row) -> Prices<1> {
    let mut prices = Prices::new(board, 1);
    let mut stretch = Stretch::new(board, row);
    let edge = [Some(Start::Edge)].into_iter();
    prices.fill(&mut stretch, edge, row.tall[0]);
    prices
}

/// The starts at a tall cell in a row, by pair; none where no case has that pair.
fn live_starts<'board: 'cases, 'cases, const L: usize>(
    board: &'board Board,
    cases: &'cases Cases<L>,
    row: usize,
    tall: usize,
) -> impl Iterator<Item = Option<Start<'board>>> + 'cases {
    let pairs = cases.pairs;
    let place = board.rows[row].tall[tall];
    let poses = &board.rows[row].lines[place].poses;
    (0..pairs).map(move |pair| {
        let case = |other: usize| match row {
            0 => cases.row(pair, other),
            _ => cases.row(other, pair),
        };
        let live = (0..pairs).any(|other| case(other).is_some());
        live.then_some(Start::Tall { place, pair, poses })
    })
}

/// The case of the last tall cell from which both rows end at the least charge.
pub fn cheapest_end<const L: usize>(board: &Board, cases: &Cases<L>) -> Option<Source> {
    let tall = board.rows[0].tall.len() - 1;
    let [ends_0, ends_1] = [0, 1].map(|row| {
        let mut stretch = Stretch::<L>::new(board, &board.rows[row]);
        let starts = live_starts(board, cases, row, tall);
        let ends = starts.map(|start| match start {
            Some(start) if stretch.begin(start) => stretch.run_to_end(),
            _ => [NONE; L],
        });
        ends.collect::<Vec<_>>()
    });
    let mut least = NONE;
    let mut best = None;
    for (pair_0, end_0) in ends_0.iter().enumerate() {
        for (pair_1, end_1) in ends_1.iter().enumerate() {
            for (lane, charge) in cases.row(pair_0, pair_1).into_iter().flatten().enumerate() {
                let charge = charge + end_0[lane] + end_1[lane];
                if charge < least {
                    least = charge;
                    best = Some(Source {
                        pairs: [pair_0 as u8, pair_1 as u8],
                        lane: lane as u8,
                    });
                }
            }
        }
    }
    best
}
