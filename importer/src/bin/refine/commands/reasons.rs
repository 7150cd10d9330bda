//! `refine reasons`: the sentence on a placement, for row editors.

use super::score::{refusal_of, texts};
use crate::mistake::Mistake;
use crate::report::Report;
use crate::words::Words;
use importer::sentence;
use std::ffi::OsString;

pub fn run(words: &[OsString]) -> Result<Report, Mistake> {
    let words = Words::of(words, &[])?;
    let (job, placement) = texts(&words)?;
    Ok(match sentence(&job.bytes, &placement.bytes) {
        Ok(sentence) => Report::answer(format!("{sentence}\n")),
        Err(refused) => refusal_of(refused, &job, &placement),
    })
}
