//! `refine` alone: places a job.

use crate::input::{Text, DASH};
use crate::memory::{check_stack, zeros};
use crate::mistake::Mistake;
use crate::report::{line_of, Report};
use crate::words::{Switch, Words};
use importer::{explain, place, store_words, Placed, OUTPUT_BYTES};
use std::ffi::{OsStr, OsString};

const JOB: &str = "a job";

const PLACEMENT_ONLY: Switch = Switch {
    words: &["-p", "--placement-only"],
    takes: None,
    does: "print the placement without the line of numbers before it",
};

pub const OPTIONS: &[Switch] = &[PLACEMENT_ONLY];

pub fn run(words: &[OsString]) -> Result<Report, Mistake> {
    let words = Words::of(words, OPTIONS)?;
    let job = match words.arguments[..] {
        [] => Text::of_standard_input(JOB)?,
        [word] => job_of(word)?,
        [word, ..] if word != DASH => return Err(Mistake::unknown(word)),
        _ => return Err(Mistake::count(&words.arguments)),
    };
    let mut store = zeros(store_words(&job.bytes), "the store")?;
    let mut text = zeros(OUTPUT_BYTES, "the placement")?;
    check_stack()?;
    match place(&job.bytes, &mut store, &mut text) {
        Ok(placed) => Ok(answer_of(&placed, &text, words.has(&PLACEMENT_ONLY))),
        Err(refused) => {
            let line = super::fault_line(&job.bytes, &[]);
            let reason = explain::job_line(&job.bytes, &refused);
            Ok(Report::refusal(refused, &job.name, &line, reason))
        }
    }
}

/// A word that names no command is the name of the job's file.
fn job_of(word: &OsStr) -> Result<Text, Mistake> {
    Text::of(word, JOB).map_err(|mistake| match mistake {
        Mistake::Absent(_) => Mistake::Input(format!(
            "there is no command and no file {word:?}; see `refine --help`"
        )),
        other => other,
    })
}

/// The numbers, unless the placement alone is wanted, and the placement.
fn answer_of(placed: &Placed, text: &[u8], alone: bool) -> Report {
    let mut output = match alone {
        true => Vec::new(),
        false => format!("{}\n", line_of(&placed.numbers)).into_bytes(),
    };
    output.extend(text.iter().take(placed.text_length));
    Report::answer(output)
}
