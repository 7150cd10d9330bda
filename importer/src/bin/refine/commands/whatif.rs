//! `refine whatif`: what a job would cost with other limits, and what it lacks.

use super::TABLE;
use crate::input::Text;
use crate::mistake::Mistake;
use crate::report::Report;
use crate::words::{Switch, Words};
use importer::desk::{whatif, Table, Ways, WhatIf, DISPLACEMENTS, REORDERINGS};
use importer::{explain, Refused};
use std::ffi::OsString;
use std::iter::once;

pub const OPTIONS: &[Switch] = &[TABLE];

pub fn run(words: &[OsString]) -> Result<Report, Mistake> {
    let words = Words::of(words, OPTIONS)?;
    let [job] = words.arguments[..] else {
        return Err(Mistake::count(&words.arguments));
    };
    let job = Text::of(job, "a job")?;
    Ok(match whatif(&job.bytes) {
        Ok(whatif) if words.has(&TABLE) => Report::answer(table(&whatif)),
        Ok(whatif) => Report::answer(lines(&whatif)),
        Err(refused) => refusal_of(refused, &job),
    })
}

fn refusal_of(refused: Refused, job: &Text) -> Report {
    let line = super::fault_line(&job.bytes, &[]);
    let words = explain::job_line(&job.bytes, &refused);
    Report::refusal(refused, &job.name, &line, words)
}

/// A number, or that there is none.
fn or_none(number: Option<u32>) -> String {
    number.map_or("none".into(), |number| number.to_string())
}

/// The answer as lines of fields.
fn lines(whatif: &WhatIf) -> String {
    let (displacement, reordering) = (whatif.displacement, whatif.reordering);
    let own = or_none(whatif.own_cost());
    let mut lines = format!("job,{displacement},{reordering},{own}\n");
    for displacement in DISPLACEMENTS {
        for reordering in REORDERINGS {
            let cost = or_none(whatif.cost(displacement, reordering));
            lines += &format!("cost,{displacement},{reordering},{cost}\n");
        }
    }
    if let Some(ways) = &whatif.ways {
        lines += &format!("line,{},{}\n", line_of(ways), ways.cell);
        for (name, number) in limits(ways, whatif) {
            lines += &format!("{name},{}\n", or_none(number));
        }
    }
    lines
}

/// The line of a job in which a cell stands.
fn line_of(ways: &Ways) -> u32 {
    ways.cell + 1
}

/// The limits that a job lacks. Where fewer sites than its own give it a placement, so may more, and
/// where cells are fixed, one of them may be in the way.
fn limits(ways: &Ways, whatif: &WhatIf) -> Vec<(&'static str, Option<u32>)> {
    let mut limits = vec![
        ("smallest D", ways.displacement),
        ("smallest R", ways.reordering),
        ("smallest sites", ways.sites),
    ];
    if ways.sites.is_some_and(|sites| sites < whatif.sites) {
        limits.push(("more sites", ways.more_sites));
    }
    if whatif.fixed > 0 {
        limits.push(("free cell", ways.freed));
    }
    limits
}

/// The answer for people.
fn table(whatif: &WhatIf) -> String {
    let own = match whatif.own_cost() {
        Some(cost) => format!("cheapest cost {cost}"),
        None => "no legal placement".into(),
    };
    let (sites, displacement, reordering) = (whatif.sites, whatif.displacement, whatif.reordering);
    let fixed = match whatif.fixed {
        0 => String::new(),
        fixed => format!(", fixed cells {fixed}"),
    };
    let mut text =
        format!("the job: D {displacement}, R {reordering}, sites {sites}{fixed}; {own}\n\n");
    text += &cost_table(whatif);
    if let Some(ways) = &whatif.ways {
        let (line, cell) = (line_of(ways), ways.cell);
        text += &format!("\nno placement exists any more with line {line}, cell {cell}\n");
        text += "what alone would give one:\n";
        for (name, number) in limits(ways, whatif) {
            text += &format!("  {name}: {}\n", or_none(number));
        }
    }
    text
}

fn cost_table(whatif: &WhatIf) -> String {
    let columns = REORDERINGS.map(|reordering| format!("R {reordering}"));
    let mut table = Table::new(once(String::new()).chain(columns));
    for displacement in DISPLACEMENTS {
        let cost = |reordering| or_none(whatif.cost(displacement, reordering));
        table.push(once(format!("D {displacement}")).chain(REORDERINGS.map(cost)));
    }
    table.text()
}
