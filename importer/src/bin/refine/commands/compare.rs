//! `refine compare`: a supplier's placement beside the cheapest, for the desk.

use super::score::{refusal_of, texts, with_sentence};
use super::TABLE;
use crate::figures::{self, Figures};
use crate::input::Text;
use crate::mistake::Mistake;
use crate::report::Report;
use crate::words::{Switch, Words};
use importer::desk::{Change, Comparison, RawPose, Step, StepChanges, Table};
use importer::{refine, score, Broken, Verdict};
use std::ffi::OsString;

const MAX_LOSS: Switch = Switch {
    words: &["--max-loss"],
    takes: Some("N"),
    does: "exit with status 1 where more than N of cost was left, or a rule is broken",
};

pub const OPTIONS: &[Switch] = &[TABLE, MAX_LOSS];

pub fn run(words: &[OsString]) -> Result<Report, Mistake> {
    let words = Words::of(words, OPTIONS)?;
    let most = words.number(&MAX_LOSS)?;
    let (job, placement) = texts(&words)?;
    let theirs = match score(&job.bytes, &placement.bytes) {
        Ok(theirs) => theirs,
        Err(refused) => return Ok(refusal_of(refused, &job, &placement)),
    };
    let cheapest = match refine(&job.bytes) {
        Ok(cheapest) => cheapest,
        Err(refused) => {
            let report = refusal_of(refused, &job, &placement);
            return Ok(with_verdict(report, &theirs, &job, &placement));
        }
    };
    let comparison = Comparison::of(&job.bytes, &placement.bytes, theirs, &cheapest);
    let output = if words.has(&TABLE) {
        tables(&comparison)
    } else {
        lines(&comparison)
    };
    let report = with_verdict(Report::answer(output), &theirs, &job, &placement);
    Ok(checked(report, &comparison, most))
}

/// The report with the sentence on the placement, if a rule is broken.
fn with_verdict(report: Report, theirs: &Verdict, job: &Text, placement: &Text) -> Report {
    match theirs {
        Verdict::Legal(_) => report,
        Verdict::Broken(broken) => with_sentence(report, broken, job, placement),
    }
}

/// The report, or if more was lost than may be, a check that was not passed.
fn checked(report: Report, comparison: &Comparison, most: Option<u32>) -> Report {
    match (most, comparison.lost()) {
        (None, _) => report,
        (Some(_), None) => report.not_passed("not accepted: the placement is not legal"),
        (Some(most), Some(lost)) if lost > most => {
            let loss = format!("{lost} of cost was left, {most} may be");
            report.not_passed(&format!("not accepted: {loss}"))
        }
        (Some(_), Some(_)) => report,
    }
}

/// What is said of each placement, and of a legal one what is saved.
fn rows(comparison: &Comparison) -> Vec<(&'static str, Figures)> {
    let cheapest = figures::of(&comparison.cheapest);
    match &comparison.theirs {
        Verdict::Broken(_) => vec![("cheapest", cheapest)],
        Verdict::Legal(numbers) => {
            let theirs = figures::of(numbers);
            let saved = figures::saved(&theirs, &cheapest);
            vec![("theirs", theirs), ("cheapest", cheapest), ("saved", saved)]
        }
    }
}

/// The comparison as lines of fields.
fn lines(comparison: &Comparison) -> String {
    let mut lines = String::new();
    if let Verdict::Broken(Broken { rule, cell }) = comparison.theirs {
        lines += &format!("broken,{rule},{cell}\n");
    }
    lines.extend(rows(comparison).iter().map(figures::line));
    for change in &comparison.cells {
        let lead = if change.fixed { "fixed" } else { "cell" };
        let fields = fields_of(change).map(|field| field.to_string());
        lines += &format!("{lead},{}\n", fields.join(","));
    }
    if let Some(StepChanges { kept, gone, new }) = &comparison.steps {
        lines += &format!("steps,{kept},{},{}\n", gone.len(), new.len());
        for (lead, step) in in_order(gone, new) {
            lines += &format!("step {lead},{}\n", words_of(step).join(","));
        }
    }
    lines
}

/// The comparison as tables.
fn tables(comparison: &Comparison) -> String {
    let mut text = String::new();
    if let Verdict::Broken(Broken { rule, cell }) = comparison.theirs {
        text += &format!("theirs is broken: rule {rule}, cell {cell}\n\n");
    }
    text += &figures::table(&rows(comparison));
    text += "\n";
    text += &match &*comparison.cells {
        [] => "each cell stands the same\n".into(),
        cells => cell_table(cells),
    };
    if let Some(StepChanges { kept, gone, new }) = &comparison.steps {
        text += &format!("\nsteps that both have: {kept}\n");
        if !gone.is_empty() || !new.is_empty() {
            text += &step_table(gone, new);
        }
    }
    text
}

fn cell_table(changes: &[Change]) -> String {
    let columns = "cell,their site,layout,mark,cheapest site,layout,mark";
    let mut table = Table::new(columns.split(','));
    for change in changes {
        let mut fields = fields_of(change).map(|field| field.to_string());
        if change.fixed {
            fields[0] = format!("fixed {}", fields[0]);
        }
        table.push(fields);
    }
    table.text()
}

fn step_table(gone: &[Step], new: &[Step]) -> String {
    let columns = "step,row,left cell,right cell,type,gap";
    let mut table = Table::new(columns.split(','));
    for (lead, step) in in_order(gone, new) {
        table.push([lead.to_string()].into_iter().chain(words_of(step)));
    }
    table.text()
}

/// A cell, and its poses in both placements.
fn fields_of(change: &Change) -> [u32; 7] {
    let RawPose { site, layout, mark } = change.theirs;
    let to = change.cheapest;
    [change.cell, site, layout, mark, to.site, to.layout, to.mark]
}

/// The steps that go, then those that come.
fn in_order<'steps>(
    gone: &'steps [Step],
    new: &'steps [Step],
) -> impl Iterator<Item = (&'static str, &'steps Step)> {
    let gone = gone.iter().map(|step| ("gone", step));
    gone.chain(new.iter().map(|step| ("new", step)))
}

fn words_of(step: &Step) -> [String; 5] {
    [
        step.row.to_string(),
        step.left.to_string(),
        step.right.to_string(),
        step.diffusion.to_string(),
        step.gap.to_string(),
    ]
}
