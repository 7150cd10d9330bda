//! `refine gaps`: the gaps of a placement and the fillers that close them, for the fill engineer.

use super::score::{refusal_of, texts, with_sentence};
use super::TABLE;
use crate::figures;
use crate::mistake::Mistake;
use crate::report::{line_of, Report};
use crate::words::{Switch, Words};
use importer::desk::{self, Fillers, Gap, RowGaps, Table, Tally, Untold, WIDTHS};
use importer::{score, Broken, Verdict};
use std::ffi::OsString;

pub const OPTIONS: &[Switch] = &[TABLE];

pub fn run(words: &[OsString]) -> Result<Report, Mistake> {
    let words = Words::of(words, OPTIONS)?;
    let (job, placement) = texts(&words)?;
    let verdict = match score(&job.bytes, &placement.bytes) {
        Ok(verdict) => verdict,
        Err(refused) => return Ok(refusal_of(refused, &job, &placement)),
    };
    let rows = desk::gaps(&job.bytes, &placement.bytes);
    let rows = rows.filter(|rows| agrees(&verdict, rows));
    debug_assert!(rows.is_some(), "{verdict:?}");
    let rows = rows.unwrap_or_default();
    let output = if words.has(&TABLE) {
        let rows: String = rows.iter().map(table).collect();
        verdict_words(&verdict) + &rows
    } else {
        let rows: String = rows.iter().map(lines).collect();
        verdict_line(&verdict) + &rows
    };
    let report = Report::answer(output);
    Ok(match verdict {
        Verdict::Legal(_) => report,
        Verdict::Broken(broken) => with_sentence(report, &broken, &job, &placement),
    })
}

/// A legal placement's rows can all be told, and what is open in them is a row without cells.
fn agrees(verdict: &Verdict, rows: &[RowGaps]) -> bool {
    let closed =
        |row: &RowGaps| row.gaps.is_ok() && (row.cells == 0 || row.open().next().is_none());
    matches!(verdict, Verdict::Broken(_)) || rows.iter().all(closed)
}

fn verdict_line(verdict: &Verdict) -> String {
    match verdict {
        Verdict::Legal(numbers) => format!("legal,{}\n", line_of(numbers)),
        Verdict::Broken(Broken { rule, cell }) => format!("broken,{rule},{cell}\n"),
    }
}

fn verdict_words(verdict: &Verdict) -> String {
    match verdict {
        Verdict::Legal(numbers) => figures::table(&[("legal", figures::of(numbers))]),
        Verdict::Broken(Broken { rule, cell }) => format!("broken: rule {rule}, cell {cell}\n"),
    }
}

/// A row as lines of fields: `gaps` for each width, or `empty` or `skipped`; then those `open`.
fn lines(row: &RowGaps) -> String {
    let number = row.row;
    let mut lines = match row.tallies() {
        Err(Untold { cell, reason }) => format!("skipped,{number},{cell},{reason}\n"),
        Ok(_) if row.cells == 0 => {
            let Fillers { of_two, of_three } = Fillers::closing(row.sites).unwrap_or_default();
            format!("empty,{number},{},{of_two},{of_three}\n", row.sites)
        }
        Ok(tallies) => {
            let fields = |(width, tally)| line_with(width, entries(tally)).join(",");
            let lines = widths().zip(&tallies).map(fields);
            lines
                .map(|line| format!("gaps,{number},{line}\n"))
                .collect()
        }
    };
    for gap in row.open() {
        let side = |cell: Option<u32>| cell.map_or("end".into(), |cell| cell.to_string());
        let (left, right) = (side(gap.left), side(gap.right));
        lines += &format!("open,{number},{},{left},{right}\n", gap.site);
    }
    lines
}

/// The widths as they are printed: from the last one on all are together.
fn widths() -> impl Iterator<Item = String> {
    let mark = |at| if at + 1 < WIDTHS.len() { "" } else { "+" };
    let widths = WIDTHS.iter().enumerate();
    widths.map(move |(at, width)| format!("{width}{}", mark(at)))
}

fn entries(tally: &Tally) -> [u32; 5] {
    let Fillers { of_two, of_three } = tally.fillers;
    let Tally {
        left_end,
        between,
        right_end,
        ..
    } = *tally;
    [left_end, between, right_end, of_two, of_three]
}

/// A row for people: its table, and in words what cannot be closed.
fn table(row: &RowGaps) -> String {
    let (number, sites) = (row.row, row.sites);
    let mut text = match row.tallies() {
        Err(Untold { cell, reason }) => {
            format!("\nrow {number}: its gaps cannot be told, for cell {cell}: {reason}\n")
        }
        Ok(_) if row.cells == 0 => {
            let Fillers { of_two, of_three } = Fillers::closing(sites).unwrap_or_default();
            format!(
                "\nrow {number}: no cells, {sites} sites; fillers of 2: {of_two}, of 3: {of_three}\n"
            )
        }
        Ok(tallies) => {
            let cells = row.cells;
            let heading = format!("\nrow {number}: cells {cells}, sites {sites}\n");
            heading + &table_of(&tallies)
        }
    };
    for gap in row.open() {
        let (site, sides) = (gap.site, sides(gap));
        text += &format!("cannot be closed: one empty site, {site}, {sides}\n");
    }
    text
}

/// A row of the table for each width, and one for all of them.
fn table_of(tallies: &[Tally]) -> String {
    let columns = "gap,left end,between,right end,fillers of 2,fillers of 3";
    let mut table = Table::new(columns.split(','));
    let mut all = [0; 5];
    for (width, tally) in widths().zip(tallies) {
        let entries = entries(tally);
        all.iter_mut()
            .zip(entries)
            .for_each(|(sum, entry)| *sum += entry);
        table.push(line_with(width, entries));
    }
    table.push(line_with("all".into(), all));
    table.text()
}

fn line_with(lead: String, entries: [u32; 5]) -> Vec<String> {
    let entries = entries.map(|entry| entry.to_string());
    [lead].into_iter().chain(entries).collect()
}

/// What a gap stands between, in words.
fn sides(gap: &Gap) -> String {
    match (gap.left, gap.right) {
        (Some(left), Some(right)) => format!("between cells {left} and {right}"),
        (None, Some(first)) => format!("between the row's start and cell {first}"),
        (Some(last), None) => format!("between cell {last} and the row's end"),
        (None, None) => "in a row without cells".into(),
    }
}
