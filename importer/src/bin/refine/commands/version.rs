//! `refine --version`: which program this is, and which archive it is linked with.

use crate::mistake::Mistake;
use crate::report::Report;
use crate::words::Words;
use std::ffi::OsString;

const VERSION: &str = env!("CARGO_PKG_VERSION");

/// The archive's SHA-256, from the build.
const SUM: &str = env!("REFINER_ARCHIVE_SUM");

/// The kit that proved the archive, by the record beside it at the build; empty without one.
const KIT: &str = env!("REFINER_KIT");

pub fn run(words: &[OsString]) -> Result<Report, Mistake> {
    let words = Words::of(words, &[])?;
    if !words.arguments.is_empty() {
        return Err(Mistake::count(&words.arguments));
    }
    let kit = match KIT {
        "" => "unknown",
        kit => kit,
    };
    let lines = format!("refine {VERSION}\nkit {kit}\narchive sha256 {SUM}\n");
    Ok(Report::answer(lines))
}
