//! A refusal: its number, its line, and what they mean in words.

use crate::RefusalKind;
use std::fmt;

/// What a refusal number means, and what to do about it.
#[derive(Clone, Copy, Debug, PartialEq, Eq)]
pub struct Refusal {
    /// The number that a call returns.
    pub number: u32,
    /// The same as a name.
    pub kind: RefusalKind,
    /// What is wrong.
    pub meaning: &'static str,
    /// What to do about it.
    pub remedy: &'static str,
}

/// Every refusal number, once and in rising order. README's table and the header's say the same
/// in the same words; `tests/tables.rs` holds them to it.
pub const REFUSALS: &[Refusal] = &[
    Refusal {
        number: 1,
        kind: RefusalKind::Form,
        meaning: "the line is not in the job's form",
        remedy: "check the lead, the commas, the numbers, the number of fields and the line feed",
    },
    Refusal {
        number: 2,
        kind: RefusalKind::Range,
        meaning: "a field of the line is out of range",
        remedy: "bring each field of the line into its range",
    },
    Refusal {
        number: 3,
        kind: RefusalKind::Count,
        meaning: "the line's cell is the 65th, or the 25th tall one",
        remedy: "split the job: it holds at most 64 cells, of which at most 24 are tall",
    },
    Refusal {
        number: 4,
        kind: RefusalKind::Order,
        meaning: "the line's given site is below an earlier one in its row",
        remedy: "sort the cell lines so that given sites do not fall within a row",
    },
    Refusal {
        number: 5,
        kind: RefusalKind::Placement,
        meaning: "the placement's line is bad, missing or surplus",
        remedy: "give one line `site,layout,mirror` for each cell, in file order",
    },
    Refusal {
        number: 6,
        kind: RefusalKind::Store,
        meaning: "the store has fewer than 1,048,576 words, or 4,194,304 for a job with R 2",
        remedy: "lend a larger store",
    },
    Refusal {
        number: 7,
        kind: RefusalKind::Output,
        meaning: "the output has fewer than 9 bytes per cell",
        remedy: "lend a larger output",
    },
    Refusal {
        number: 8,
        kind: RefusalKind::NoLegal,
        meaning: "no legal placement exists",
        remedy: "raise D or R, give the rows more sites, move cells to other rows, or let fixed cells move",
    },
    Refusal {
        number: 9,
        kind: RefusalKind::LoadCount,
        meaning: "the count of cells of a load is over 64",
        remedy: "ask for at most 64 cells",
    },
    Refusal {
        number: 10,
        kind: RefusalKind::LoadOutput,
        meaning: "the output of a load has fewer than 8,192 bytes",
        remedy: "lend a larger output",
    },
    Refusal {
        number: 11,
        kind: RefusalKind::ReasonsOutput,
        meaning: "the output of a sentence has fewer than 1,024 bytes",
        remedy: "lend a larger output",
    },
];

/// A call was refused.
///
/// ```
/// use importer::{read, RefusalKind};
///
/// let refused = read(b"J,1,2000,1,1,100,1,100,50\n").unwrap_err();
/// assert_eq!((refused.number, refused.line), (2, 1));
/// assert_eq!(refused.kind(), RefusalKind::Range);
/// assert_eq!(refused.reason(), "a field of the line is out of range");
/// ```
#[derive(Clone, Copy, Debug, PartialEq, Eq)]
pub struct Refused {
    /// The refusal's number, from 1.
    pub number: u32,
    /// The line at fault, counted from 1, or 0 if no line is.
    pub line: u32,
}

impl Refused {
    /// The number as a name, to match on.
    pub fn kind(&self) -> RefusalKind {
        self.entry()
            .map_or(RefusalKind::Unknown, |refusal| refusal.kind)
    }

    /// What is wrong.
    pub fn reason(&self) -> &'static str {
        match self.entry() {
            Some(refusal) => refusal.meaning,
            None => "the refiner gave a number that this program does not know",
        }
    }

    /// What to do about it.
    pub fn remedy(&self) -> &'static str {
        match self.entry() {
            Some(refusal) => refusal.remedy,
            None => "build program and archive from the same sources",
        }
    }

    /// The line that `refine` prints of it: `refused,number,line`.
    pub fn fields(&self) -> String {
        format!("refused,{},{}", self.number, self.line)
    }

    /// The number's entry in the table. There is none if the archive is newer than this program.
    fn entry(&self) -> Option<&'static Refusal> {
        REFUSALS
            .iter()
            .find(|refusal| refusal.number == self.number)
    }
}

impl fmt::Display for Refused {
    fn fmt(&self, out: &mut fmt::Formatter<'_>) -> fmt::Result {
        write!(out, "refusal {}", self.number)?;
        if self.line > 0 {
            write!(out, " at line {}", self.line)?;
        }
        write!(out, ": {}; {}", self.reason(), self.remedy())
    }
}

impl std::error::Error for Refused {}
