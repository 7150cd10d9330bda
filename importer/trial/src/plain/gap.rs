//! Document 02, A5: "forbidden if the gap is 1, charged if it is below 4"; A7: a step against filler
//! is one "at gaps 2 and 3".

/// Whether a row may not leave so many sites empty, between neighbours or at an end.
pub fn is_forbidden(gap: i32) -> bool {
    gap == 1
}

/// Whether steps count at a gap. Cells that overlap have none.
pub fn is_charged(gap: i32) -> bool {
    (0..4).contains(&gap) && !is_forbidden(gap)
}

/// Whether steps at a gap are filled ones: filler stands in a charged gap that is not 0.
pub fn is_filled(gap: i32) -> bool {
    is_charged(gap) && gap != 0
}

#[cfg(test)]
mod tests {
    use super::*;

    /// Document 01: "a step costs 1 at gap 0, is forbidden at gap 1, costs 1 at gaps 2 and 3, and 0
    /// from 4 on".
    #[test]
    fn each_gap_of_a_row() {
        let forbidden = (0..=1024).filter(|gap| is_forbidden(*gap));
        assert_eq!(forbidden.collect::<Vec<_>>(), [1]);
        let charged = (0..=1024).filter(|gap| is_charged(*gap));
        assert_eq!(charged.collect::<Vec<_>>(), [0, 2, 3]);
        let filled = (0..=1024).filter(|gap| is_filled(*gap));
        assert_eq!(filled.collect::<Vec<_>>(), [2, 3]);
    }
}
