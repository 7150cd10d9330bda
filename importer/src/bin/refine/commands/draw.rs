//! `refine draw`: a job's rows as a picture, as they are given or as a placement has them.

use super::score::{both, refusal_of};
use crate::input::Text;
use crate::mistake::Mistake;
use crate::report::Report;
use crate::words::{Switch, Words};
use importer::draw::draw;
use std::ffi::OsString;

const BEST: Switch = Switch {
    words: &["--best"],
    takes: None,
    does: "draw a cheapest placement below",
};

pub const OPTIONS: &[Switch] = &[BEST];

pub fn run(words: &[OsString]) -> Result<Report, Mistake> {
    let words = Words::of(words, OPTIONS)?;
    let (job, placement) = match words.arguments[..] {
        [job] => (Text::of(job, "a job")?, None),
        [job, placement] => {
            let (job, placement) = both(job, placement)?;
            (job, Some(placement))
        }
        _ => return Err(Mistake::count(&words.arguments)),
    };
    let drawn = placement.as_ref().map(|placement| &*placement.bytes);
    Ok(match draw(&job.bytes, drawn, words.has(&BEST)) {
        Ok(picture) => Report::answer(picture),
        Err(refused) => refusal_of(refused, &job, &placement.unwrap_or_else(Text::none)),
    })
}
