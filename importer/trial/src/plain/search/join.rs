//! From the cases of one tall cell to those of the next.

use super::block::{least, Lanes};
use super::lines::Line;
use super::stage::{Cases, Prices, Source, Sources, Way};
use super::{Charge, NONE};

/// The cases of a tall cell and their sources, from those of the tall cell before it and the prices
/// in both rows. Its own charge is paid once.
pub fn join<const FROM: usize, const L: usize>(
    from: &Cases<FROM>,
    prices: &[Prices<FROM>; 2],
    tall: &Line,
) -> (Cases<L>, Sources<L>) {
    let pairs = prices[0].pairs;
    let mut cases = Cases::none(pairs);
    let mut sources = vec![[Source::default(); L]; pairs * pairs];
    let mut ways = [0, 1].map(|_| (0..pairs).map(|_| Vec::new()).collect::<Vec<_>>());
    let mut sums = Sums::new(from);
    for (lane, &pose) in tall.poses.iter().enumerate() {
        for (prices, ways) in prices.iter().zip(&mut ways) {
            prices.ways(pose, ways);
        }
        let [ways_0, ways_1] = &ways;
        for (pair_0, ways_0) in ways_0.iter().enumerate() {
            sums.fill(ways_0);
            for (pair_1, ways_1) in ways_1.iter().enumerate() {
                if let Some((charge, source)) = sums.best(ways_0, ways_1) {
                    let case = pair_0 * pairs + pair_1;
                    cases.set(case, lane, charge + tall.own[pose]);
                    sources[case][lane] = source;
                }
            }
        }
    }
    (cases, sources)
}

/// For each start in row 1: the least charge of a start in row 0 and a way from it, by lane.
struct Sums<'a, const L: usize> {
    from: &'a Cases<L>,
    rows: Vec<Lanes<L>>,
    live: Vec<bool>,
}

impl<'a, const L: usize> Sums<'a, L> {
    fn new(from: &'a Cases<L>) -> Sums<'a, L> {
        Sums {
            from,
            rows: vec![[NONE; L]; from.pairs],
            live: vec![false; from.pairs],
        }
    }

    /// Sums up with the ways in row 0.
    fn fill(&mut self, ways: &[Way<L>]) {
        for start_1 in 0..self.from.pairs {
            let sums = &mut self.rows[start_1];
            let mut live = false;
            for way in ways {
                if let Some(charges) = self.from.row(way.start, start_1) {
                    if !live {
                        *sums = [NONE; L];
                        live = true;
                    }
                    lower_by_sums(sums, charges, way.charges);
                }
            }
            self.live[start_1] = live;
        }
    }

    /// The least charge over the ways in row 1, with its source, if there is one. The ways in row 0
    /// are those that were summed up.
    fn best(&self, ways_0: &[Way<L>], ways_1: &[Way<L>]) -> Option<(Charge, Source)> {
        let mut live = ways_1.iter().filter(|way| self.live[way.start]);
        let first = live.next()?;
        let mut charges = [NONE; L];
        lower_by_sums(&mut charges, &self.rows[first.start], first.charges);
        for way in live {
            lower_by_sums(&mut charges, &self.rows[way.start], way.charges);
        }
        let charge = least_lane(&charges);
        if charge == NONE {
            return None;
        }
        let lane = charges.iter().position(|&other| other == charge)?;
        let way_1 = ways_1.iter().find(|way| {
            self.live[way.start] && self.rows[way.start][lane] + way.charges[lane] == charge
        })?;
        let start_1 = way_1.start;
        let sum = self.rows[start_1][lane];
        let way_0 = ways_0.iter().find(|way| {
            let from = self.from.row(way.start, start_1);
            from.is_some_and(|from| from[lane] + way.charges[lane] == sum)
        })?;
        let source = Source {
            pairs: [way_0.start as u8, start_1 as u8],
            lane: lane as u8,
        };
        Some((charge, source))
    }
}

/// Lowers charges to the sums of two rows, where those are less.
fn lower_by_sums<const L: usize>(charges: &mut Lanes<L>, one: &Lanes<L>, other: &Lanes<L>) {
    for lane in 0..L {
        charges[lane] = least(charges[lane], one[lane] + other[lane]);
    }
}

/// The least of all lanes, four at a time.
fn least_lane<const L: usize>(charges: &Lanes<L>) -> Charge {
    let mut four = [NONE; 4];
    let fours = charges.chunks_exact(4);
    let rest = fours.remainder().iter();
    for charges in fours {
        for lane in 0..4 {
            four[lane] = least(four[lane], charges[lane]);
        }
    }
    four.iter().chain(rest).copied().fold(NONE, least)
}
