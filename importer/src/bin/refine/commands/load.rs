//! `refine load`: a job of the farm's load.

use crate::memory::zeros;
use crate::mistake::Mistake;
use crate::report::Report;
use crate::words::{argument, Words};
use importer::{load, LOAD_BYTES};
use std::ffi::OsString;

pub fn run(words: &[OsString]) -> Result<Report, Mistake> {
    let words = Words::of(words, &[])?;
    let [seed, cells] = words.arguments[..] else {
        return Err(Mistake::count(&words.arguments));
    };
    let (seed, cells) = (argument("SEED", seed)?, argument("CELLS", cells)?);
    let mut text = zeros(LOAD_BYTES, "the job")?;
    Ok(match load(seed, cells, &mut text) {
        Ok(loaded) => {
            text.truncate(loaded.text_length);
            Report::answer(text)
        }
        // Nothing was read, so there is no line to show.
        Err(refused) => Report::refusal(refused, "", &[], None),
    })
}
