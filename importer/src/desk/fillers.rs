//! Filler cells: there are some of two sites and some of three.

use std::ops::AddAssign;

const TWO: u32 = 2;
const THREE: u32 = 3;

/// So many fillers of two sites and of three.
#[derive(Clone, Copy, Debug, Default, PartialEq, Eq)]
pub struct Fillers {
    /// Those of two sites.
    pub of_two: u32,
    /// Those of three.
    pub of_three: u32,
}

impl Fillers {
    /// The fewest fillers that close a gap of so many sites: as many of three as leave no single
    /// site. None close a gap of one.
    pub fn closing(sites: u32) -> Option<Fillers> {
        let of_two = match sites % THREE {
            0 => 0,
            1 => 2,
            _ => 1,
        };
        let rest = sites.checked_sub(TWO * of_two)?;
        Some(Fillers {
            of_two,
            of_three: rest / THREE,
        })
    }
}

impl AddAssign for Fillers {
    fn add_assign(&mut self, more: Fillers) {
        self.of_two += more.of_two;
        self.of_three += more.of_three;
    }
}

#[cfg(test)]
mod tests {
    use super::*;

    #[test]
    fn small_gaps() {
        let closing = |sites| Fillers::closing(sites).map(|all| (all.of_two, all.of_three));
        let worked = [
            (0, Some((0, 0))),
            (1, None),
            (2, Some((1, 0))),
            (3, Some((0, 1))),
            (4, Some((2, 0))),
            (5, Some((1, 1))),
            (6, Some((0, 2))),
            (7, Some((2, 1))),
            (8, Some((1, 2))),
        ];
        for (sites, fillers) in worked {
            assert_eq!(closing(sites), fillers, "{sites} sites");
        }
    }

    /// Every way to close a gap is tried.
    #[test]
    fn none_close_a_gap_with_fewer() {
        for sites in 0..=1024 {
            let ways =
                (0..=sites / TWO).filter(|of_two| (sites - TWO * of_two).is_multiple_of(THREE));
            let fewest = ways
                .map(|of_two| of_two + (sites - TWO * of_two) / THREE)
                .min();
            let fillers = Fillers::closing(sites);
            let count = fillers.map(|fillers| fillers.of_two + fillers.of_three);
            assert_eq!(count, fewest, "{sites} sites");
            let closed = fillers.map(|fillers| TWO * fillers.of_two + THREE * fillers.of_three);
            assert!(closed.is_none_or(|closed| closed == sites), "{sites} sites");
        }
    }
}
