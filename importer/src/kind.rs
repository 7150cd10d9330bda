//! Refusal numbers as names.

use crate::REFUSALS;
use std::fmt;

/// What a refusal is about: its number as a name. [`REFUSALS`] has each beside its number; the
/// header `refiner.h` has the same names.
///
/// ```
/// use importer::{refine, RefusalKind};
///
/// // Two cells of three sites in a row of five.
/// let job = b"J,1,5,7,1,1,1,1,1\nC,0,0,0,1,3,1,1,1,1\nC,0,0,0,1,3,1,1,1,1\n";
/// match refine(job).unwrap_err().kind() {
///     RefusalKind::NoLegal => {} // give the row more sites
///     other => panic!("{other}"),
/// }
/// ```
#[derive(Clone, Copy, Debug, PartialEq, Eq, Hash)]
#[non_exhaustive]
pub enum RefusalKind {
    /// 1: a line is not in the job's form.
    Form,
    /// 2: a field of a line is out of range.
    Range,
    /// 3: the job has too many cells, or too many tall ones.
    Count,
    /// 4: a given site is below an earlier one in its row.
    Order,
    /// 5: a line of the placement is bad, missing or surplus.
    Placement,
    /// 6: the lent store is too small. Only [`place`](crate::place) can meet it.
    Store,
    /// 7: the lent output is too small. Only [`place`](crate::place) can meet it.
    Output,
    /// 8: no legal placement exists.
    NoLegal,
    /// 9: a load is to have too many cells. Only [`load`](crate::load) and
    /// [`farm_job`](crate::farm_job) can meet it.
    LoadCount,
    /// 10: the output that is lent for a load is too small. Only [`load`](crate::load) can meet it.
    LoadOutput,
    /// 11: the output that is lent for a sentence is too small. Only [`reasons`](crate::reasons())
    /// can meet it.
    ReasonsOutput,
    /// A number that this crate does not know: the archive is newer.
    Unknown,
}

/// What the refusal means, in the words of [`REFUSALS`].
impl fmt::Display for RefusalKind {
    fn fmt(&self, out: &mut fmt::Formatter<'_>) -> fmt::Result {
        let entry = REFUSALS.iter().find(|refusal| refusal.kind == *self);
        let meaning = entry.map_or("an unknown refusal", |refusal| refusal.meaning);
        out.pad(meaning)
    }
}
