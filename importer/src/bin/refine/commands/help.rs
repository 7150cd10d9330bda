//! `refine help`: the usage text, of all commands or of one.

use crate::mistake::Mistake;
use crate::report::Report;
use std::ffi::OsString;

pub fn run(words: &[OsString]) -> Result<Report, Mistake> {
    match words {
        [] => Ok(Report::answer(super::usage(super::COMMANDS))),
        [word] => match super::named(word) {
            Some(command) => Ok(super::help_of(command)),
            None => Err(Mistake::unknown(word)),
        },
        _ => Err(Mistake::count(words)),
    }
}
