//! Jobs whose given rows are a legal placement, or one that breaks rules 5 and 8 alone, by their
//! shape.

use super::{jobs, Random};
use crate::plain::job::{Job, Weights, TALL};

/// What a job is to look like.
#[derive(Clone, Copy, Debug)]
pub struct Shape {
    pub rows: u16,
    pub cells: usize,
    /// How many of the cells are tall; they are spread evenly among the others, so that each has
    /// its share of the cells before it.
    pub tall: usize,
    /// How early a tall cell stands in its share: 0 for its last cell, `cells` less 1 for its first.
    pub early: usize,
    pub most_width: u16,
    pub most_height: u16,
    pub displacement: u16,
    pub reordering: u16,
    /// The gaps that neighbours are given to choose from.
    pub gaps: &'static [u16],
    /// How many empty sites to choose from before a row's first cell, and behind the longer row's
    /// last.
    pub ends: &'static [u16],
    /// Whether just one empty site may be left at a row's end: rule 8 is then left to chance.
    pub one_site_ends: bool,
    /// Whether neighbours may stand one site apart: rule 5 is then left to chance.
    pub one_site_gaps: bool,
}

/// A heavy shape, to be changed where a job is to differ: every cell has two layouts and may be
/// mirrored, and rows are dense.
pub const HEAVY: Shape = Shape {
    rows: 2,
    cells: 64,
    tall: 24,
    early: 0,
    most_width: 12,
    most_height: 3,
    displacement: 7,
    reordering: 1,
    gaps: &[0, 0, 0, 2, 3, 4],
    ends: &[0],
    one_site_ends: false,
    one_site_gaps: false,
};

/// A job of this shape. All its cells have two layouts and may be mirrored.
pub fn job(random: &mut Random, shape: &Shape) -> Job {
    let mut ends = [None; 2];
    let cells = (0..shape.cells).map(|at| {
        let row = row_of(random, shape, at);
        let mut cell = jobs::cell_with_layouts(random, row, 2, shape.most_width, shape.most_height);
        cell.mirrorable = true;
        let ends = &mut ends[cell.rows()];
        cell.given = site_after(random, shape, ends);
        ends.fill(Some(cell.given + cell.layout[0].width));
        cell
    });
    let cells = cells.collect();
    Job {
        rows: shape.rows,
        sites: sites(random, shape, &ends),
        displacement: shape.displacement,
        reordering: shape.reordering,
        weights: Weights {
            step: 100,
            shift: 10,
            mirror: 60,
            swap: 50,
            filled: None,
        },
        cells,
    }
}

fn row_of(random: &mut Random, shape: &Shape, at: usize) -> u16 {
    let tall_before = |cells: usize| (cells * shape.tall + shape.early) / shape.cells;
    if tall_before(at + 1) > tall_before(at) {
        TALL
    } else {
        random.from_to(0, shape.rows - 1)
    }
}

/// The first site, from some gap on, that leaves no row with a gap of one site, but for what the
/// shape allows; `ends` has the end of each row that holds a cell.
fn site_after(random: &mut Random, shape: &Shape, ends: &[Option<u16>]) -> u16 {
    let furthest = ends.iter().flatten().max();
    let gaps = furthest.map_or(shape.ends, |_| shape.gaps);
    let mut site = furthest.unwrap_or(&0) + random.pick(gaps);
    let one_site = |site: u16, end: &Option<u16>| match end {
        Some(end) => site == end + 1 && !shape.one_site_gaps,
        None => site == 1 && !shape.one_site_ends,
    };
    while ends.iter().any(|end| one_site(site, end)) {
        site += 1;
    }
    site
}

/// The fewest sites, from some room on, that leave no row with one site behind its end, unless the
/// shape allows it.
fn sites(random: &mut Random, shape: &Shape, ends: &[Option<u16>]) -> u16 {
    let furthest = ends.iter().flatten().max();
    let mut sites = furthest.unwrap_or(&1) + random.pick(shape.ends);
    let one_site = |sites: u16, end: &u16| sites == end + 1 && !shape.one_site_ends;
    while ends.iter().flatten().any(|end| one_site(sites, end)) {
        sites += 1;
    }
    sites
}
