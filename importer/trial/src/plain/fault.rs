//! The line that Score reports, as a part of one of the two texts.

use super::scorer::Verdict;
use super::Refused;
use std::ops::Range;

#[derive(Clone, Debug, PartialEq, Eq)]
pub enum Part {
    OfJob(Range<usize>),
    OfPlacement(Range<usize>),
}

impl Part {
    /// Which text (0 the job, 1 the placement), first byte, length.
    pub fn numbers(&self) -> [u64; 3] {
        let (text, range) = match self {
            Part::OfJob(range) => (0, range),
            Part::OfPlacement(range) => (1, range),
        };
        [text, range.start as u64, range.len() as u64]
    }

    /// The part itself.
    pub fn bytes<'texts>(&self, job: &'texts [u8], placement: &'texts [u8]) -> &'texts [u8] {
        match self {
            Part::OfJob(range) => &job[range.clone()],
            Part::OfPlacement(range) => &placement[range.clone()],
        }
    }
}

/// The part that belongs to what Score says of the two texts.
pub fn fault_line(job: &[u8], placement: &[u8], score: &Result<Verdict, Refused>) -> Part {
    match score {
        Ok(_) => Part::OfPlacement(placement.len()..placement.len()),
        Err(Refused { number: 5, line }) => Part::OfPlacement(line_range(placement, *line)),
        Err(Refused { line, .. }) => Part::OfJob(line_range(job, *line)),
    }
}

/// A line with its line feed if it has one; a missing one is empty, at the text's end.
fn line_range(text: &[u8], line: u32) -> Range<usize> {
    let mut start = 0;
    let mut lines = text.split_inclusive(|&byte| byte == b'\n');
    for _ in 1..line {
        start += lines.next().map_or(0, <[u8]>::len);
    }
    start..start + lines.next().map_or(0, <[u8]>::len)
}
