//! What came of a task as fields, for CSV and page.

use super::done::Done;
use super::failure::Failure;
use crate::{Broken, Numbers, Refused, Verdict};

/// What the fields are called. The first is the job's file; the last is empty for jobs that do not
/// weigh filled steps, and stands behind the others for who knows these by their places.
pub const COLUMNS: [&str; 17] = [
    "file",
    "status",
    "refusal",
    "line",
    "cost",
    "steps",
    "sites shifted",
    "mirrored",
    "changed",
    "drift",
    "placement",
    "rule",
    "cell",
    "placement line",
    "placement cost",
    "cost saved",
    "filled steps",
];

/// The fields behind the file's.
pub(super) type Fields = [String; COLUMNS.len() - 1];

/// The fields of what came of a task; one that failed has its status alone.
pub(super) fn of(result: &Result<Done, Failure>) -> Fields {
    let Ok(done) = result else {
        let mut fields = Fields::default();
        fields[0] = "failed".into();
        return fields;
    };
    let none = String::new;
    let number = |number: Option<u32>| number.map_or_else(none, |number| number.to_string());
    let refused = done.placed.err();
    let [cost, steps, shifted, mirrored, changed, drift] = numbers(done.placed.ok());
    let (placement, broken, line, theirs) = match done.theirs {
        None => ("", None, None, None),
        Some(Ok(Verdict::Legal(numbers))) => ("legal", None, None, Some(numbers.cost)),
        Some(Ok(Verdict::Broken(broken))) => ("broken", Some(broken), None, None),
        Some(Err(Refused { line, .. })) => ("refused", None, Some(line), None),
    };
    let status = match refused {
        None => "answered",
        Some(_) => "refused",
    };
    [
        status.into(),
        number(refused.map(|Refused { number, .. }| number)),
        number(refused.map(|Refused { line, .. }| line)),
        cost,
        steps,
        shifted,
        mirrored,
        changed,
        drift,
        placement.into(),
        number(broken.map(|Broken { rule, .. }| rule)),
        number(broken.map(|Broken { cell, .. }| cell)),
        number(line),
        number(theirs),
        done.saved().map_or_else(none, |saved| saved.to_string()),
        number(done.placed.ok().and_then(|numbers| numbers.filled)),
    ]
}

/// The first numbers in the order in which `refine` prints them; empty fields if there are none.
fn numbers(numbers: Option<Numbers>) -> [String; 6] {
    let Some(numbers) = numbers else {
        return Default::default();
    };
    [
        numbers.cost.to_string(),
        numbers.steps.to_string(),
        numbers.shifted.to_string(),
        numbers.mirrored.to_string(),
        numbers.changed.to_string(),
        numbers.drift.to_string(),
    ]
}
