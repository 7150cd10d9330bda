//! `refine score`: scores a placement by a job.

use crate::input::{Text, DASH};
use crate::mistake::Mistake;
use crate::report::{line_of, Report};
use crate::words::{Switch, Words};
use importer::{explain, score, sentence, Broken, Refused, Verdict};
use std::ffi::{OsStr, OsString};

/// The only refusal of which the line is the placement's.
const PLACEMENT_REFUSED: u32 = 5;

const CHECK: Switch = Switch {
    words: &["--check"],
    takes: None,
    does: "exit with status 1 for a placement that breaks a rule, too",
};

pub const OPTIONS: &[Switch] = &[CHECK];

pub fn run(words: &[OsString]) -> Result<Report, Mistake> {
    let words = Words::of(words, OPTIONS)?;
    let (job, placement) = texts(&words)?;
    match score(&job.bytes, &placement.bytes) {
        Ok(Verdict::Legal(numbers)) => Ok(Report::answer(format!("legal,{}\n", line_of(&numbers)))),
        Ok(Verdict::Broken(broken)) => {
            let report = answer_of(&broken, &job, &placement);
            Ok(match words.has(&CHECK) {
                true => report.failing(),
                false => report,
            })
        }
        Err(refused) => Ok(refusal_of(refused, &job, &placement)),
    }
}

/// The job and the placement that are named, and nothing besides.
pub fn texts(words: &Words) -> Result<(Text, Text), Mistake> {
    match words.arguments[..] {
        [job, placement] => both(job, placement),
        _ => Err(Mistake::count(&words.arguments)),
    }
}

/// A job and a placement, of which only one can be standard input.
pub fn both(job: &OsStr, placement: &OsStr) -> Result<(Text, Text), Mistake> {
    if job == DASH && placement == DASH {
        let twice = "job and placement cannot both be standard input";
        return Err(Mistake::Usage(twice.into()));
    }
    Ok((Text::of(job, "a job")?, Text::of(placement, "a placement")?))
}

/// `broken,rule,cell`; on standard error the sentence with every cell that breaks the rule.
fn answer_of(broken: &Broken, job: &Text, placement: &Text) -> Report {
    let Broken { rule, cell } = *broken;
    let report = Report::answer(format!("broken,{rule},{cell}\n"));
    with_sentence(report, broken, job, placement)
}

/// The report with the refiner's sentence on standard error, at the line of its first cell: a cell's
/// line in the placement has the cell's number.
pub fn with_sentence(report: Report, broken: &Broken, job: &Text, placement: &Text) -> Report {
    match sentence(&job.bytes, &placement.bytes) {
        Ok(sentence) => report.with_words_at(&placement.name, broken.cell, &sentence),
        // Reasons takes the texts that Score took.
        Err(refused) => refusal_of(refused, job, placement),
    }
}

pub fn refusal_of(refused: Refused, job: &Text, placement: &Text) -> Report {
    let line = super::fault_line(&job.bytes, &placement.bytes);
    let words = explain::placement_line(&job.bytes, &placement.bytes, &refused);
    let text = match refused.number {
        PLACEMENT_REFUSED => placement,
        _ => job,
    };
    Report::refusal(refused, &text.name, &line, words)
}
