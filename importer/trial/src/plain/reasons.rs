//! Reasons in words (A4): the sentence that names all cells that break the first broken rule.

use super::rules::Broken;
use super::scorer::{score, Verdict};
use super::Refused;

/// How many bytes an output must have, whatever the sentence's length.
pub const OUTPUT: usize = 1024;

const SHORT_OUTPUT: u32 = 11;

/// The phrases, by rule from 1.
pub const PHRASES: [&str; 8] = [
    "choice not offered",
    "outside row",
    "shifted too far",
    "overlap",
    "one-site gap",
    "order moved too far",
    "tall order changed",
    "one-site row end",
];

/// The sentence on a placement.
pub fn sentence(verdict: &Verdict) -> String {
    match verdict {
        Ok(_) => "legal.".into(),
        Err(Broken { rule, cells }) => {
            let phrase = PHRASES[*rule as usize - 1];
            let cells = cells.numbers().map(|number| format!("cell {number}"));
            let cells: Vec<String> = cells.collect();
            format!("{phrase}: {}.", cells.join(", "))
        }
    }
}

/// The sentence, or why it is refused to an output of so many bytes.
pub fn reasons(job: &[u8], placement: &[u8], room: usize) -> Result<String, Refused> {
    let verdict = score(job, placement)?;
    if room < OUTPUT {
        return Err(Refused {
            number: SHORT_OUTPUT,
            line: 0,
        });
    }
    Ok(sentence(&verdict))
}

/// What Reasons leaves in a result array that reaches far enough.
pub fn reasons_results(reasons: &Result<String, Refused>) -> [i32; 3] {
    match reasons {
        Ok(sentence) => [0, 0, sentence.len() as i32],
        Err(Refused { number, line }) => [*number as i32, *line as i32, 0],
    }
}
