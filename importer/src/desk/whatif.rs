//! A job with other limits: what its cheapest placement would cost, by placing each such job.

use super::altered::{field, first_cells, fixed_cells, with_cell_freed, with_field};
use super::altered::{DISPLACEMENT, REORDERING, SITES};
use crate::explain::{MOST_DISPLACEMENT, MOST_REORDERING, MOST_SITES};
use crate::{read, Refiner, Refused};
use std::ops::RangeInclusive;

/// Every D that a header may say.
pub const DISPLACEMENTS: RangeInclusive<u32> = 0..=MOST_DISPLACEMENT;
/// Every R that a header may say.
pub const REORDERINGS: RangeInclusive<u32> = 0..=MOST_REORDERING;

/// The refusal of a job that has no legal placement.
const NO_PLACEMENT: u32 = 8;

/// A job's own limits, and what others would do.
#[derive(Clone, Debug, PartialEq, Eq)]
pub struct WhatIf {
    /// Its number of sites.
    pub sites: u32,
    /// Its D.
    pub displacement: u32,
    /// Its R.
    pub reordering: u32,
    /// How many of its cells are fixed, which no D moves.
    pub fixed: usize,
    /// The cheapest cost by D and by R; none where no legal placement exists.
    pub costs: Vec<Vec<Option<u32>>>,
    /// How a job without a legal placement would get one; none if it has one.
    pub ways: Option<Ways>,
}

/// Where a job's legal placements end, and the least limits, or the fixed cell, each alone, that give
/// it one.
#[derive(Clone, Copy, Debug, PartialEq, Eq)]
pub struct Ways {
    /// The cell of the first line with which no placement exists any more: the lines before it
    /// have one, and with it or more lines there is none.
    pub cell: u32,
    /// The smallest D.
    pub displacement: Option<u32>,
    /// The smallest R.
    pub reordering: Option<u32>,
    /// The smallest number of sites, which may be below the job's own.
    pub sites: Option<u32>,
    /// The smallest number of sites above the job's own.
    pub more_sites: Option<u32>,
    /// The first fixed cell whose line, led by `C`, gives it one.
    pub freed: Option<u32>,
}

/// Places a job with each D and R, and if it has no legal placement, parts of it and other numbers
/// of sites.
pub fn whatif(job: &[u8]) -> Result<WhatIf, Refused> {
    let cells = read(job)?.cells;
    let mut placer = Placer(Refiner::new());
    let mut whatif = WhatIf {
        sites: field(job, SITES),
        displacement: field(job, DISPLACEMENT),
        reordering: field(job, REORDERING),
        fixed: fixed_cells(job).len(),
        costs: Vec::new(),
        ways: None,
    };
    for displacement in DISPLACEMENTS {
        let job = with_field(job, DISPLACEMENT, displacement);
        let cost = |reordering| placer.cost(&with_field(&job, REORDERING, reordering));
        whatif
            .costs
            .push(REORDERINGS.map(cost).collect::<Result<_, _>>()?);
    }
    if whatif.own_cost().is_none() {
        whatif.ways = Some(placer.ways(job, cells, &whatif)?);
    }
    Ok(whatif)
}

impl WhatIf {
    /// The cheapest cost with this D and R; none where no legal placement exists.
    pub fn cost(&self, displacement: u32, reordering: u32) -> Option<u32> {
        let row = self.costs.get(displacement as usize)?;
        row.get(reordering as usize).copied().flatten()
    }

    /// The cheapest cost of the job as it is.
    pub fn own_cost(&self) -> Option<u32> {
        self.cost(self.displacement, self.reordering)
    }
}

/// Places altered jobs, one after the other.
struct Placer(Refiner);

impl Placer {
    /// The cheapest cost of a job; none if no legal placement exists.
    fn cost(&mut self, job: &[u8]) -> Result<Option<u32>, Refused> {
        match self.0.place(job) {
            Ok(answer) => Ok(Some(answer.numbers().cost)),
            Err(refused) if refused.number == NO_PLACEMENT => Ok(None),
            Err(refused) => Err(refused),
        }
    }

    /// Of a job of so many cells that has no legal placement, with the costs found so far.
    fn ways(&mut self, job: &[u8], cells: u32, whatif: &WhatIf) -> Result<Ways, Refused> {
        let (own_d, own_r) = (whatif.displacement, whatif.reordering);
        let own = whatif.sites;
        let sites = self.first_sites(job, 1..=MOST_SITES)?;
        let more_sites = match sites {
            Some(sites) if sites < own => self.first_sites(job, own + 1..=MOST_SITES)?,
            sites => sites,
        };
        Ok(Ways {
            cell: self.first_cell_without(job, cells)?,
            displacement: DISPLACEMENTS
                .into_iter()
                .find(|&d| whatif.cost(d, own_r).is_some()),
            reordering: REORDERINGS
                .into_iter()
                .find(|&r| whatif.cost(own_d, r).is_some()),
            sites,
            more_sites,
            freed: self.first_freed(job)?,
        })
    }

    /// The first fixed cell with which free to move a legal placement exists.
    fn first_freed(&mut self, job: &[u8]) -> Result<Option<u32>, Refused> {
        for cell in fixed_cells(job) {
            if self.cost(&with_cell_freed(job, cell))?.is_some() {
                return Ok(Some(cell));
            }
        }
        Ok(None)
    }

    /// The first of these numbers of sites with which a legal placement exists.
    fn first_sites(
        &mut self,
        job: &[u8],
        numbers: RangeInclusive<u32>,
    ) -> Result<Option<u32>, Refused> {
        for sites in numbers {
            if self.cost(&with_field(job, SITES, sites))?.is_some() {
                return Ok(Some(sites));
            }
        }
        Ok(None)
    }

    /// The cell behind the most cells, from the first on, that have a legal placement. Fewer need
    /// not have one: a cell may close a gap of one site.
    fn first_cell_without(&mut self, job: &[u8], cells: u32) -> Result<u32, Refused> {
        for kept in (1..cells).rev() {
            if self.cost(first_cells(job, kept))?.is_some() {
                return Ok(kept + 1);
            }
        }
        Ok(1)
    }
}

#[cfg(test)]
mod tests {
    use super::*;

    #[test]
    fn a_refused_job_stays_refused() {
        let refused = Refused { number: 1, line: 3 };
        let cut = b"J,1,20,1,0,100,1,100,50\nC,0,2,1,1,4,3,3,2,2\nC,0,6,0,1,4,3,3,2,2";
        assert_eq!(whatif(cut).err(), Some(refused));
    }
}
