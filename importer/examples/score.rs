//! Scores rows that are drawn as text, a letter for each site that a cell takes and a dot for an
//! empty one:
//!
//!     cargo run --release --offline --manifest-path importer/Cargo.toml --example score
//!
//! With rows behind `--`, it scores those. Cells are A, B and C, in that order in the job; a small
//! letter stands for a mirrored cell.

use importer::job::{Cell, Header, Job, Layout, Weights};
use importer::{placement, score, sentence, Pose, Verdict};
use std::env;
use std::error::Error;

/// The job's given rows, a cheaper row, and rows that break rules 5, 6 and 8.
const ROWS: [&str; 5] = [
    "..AAAABBBBCCC..",
    "..aaaaBBBBCCC..",
    "..AAAABBBB.CCC.",
    "..BBBBCCCAAAA..",
    ".AAAABBBB..CCC.",
];

fn main() -> Result<(), Box<dyn Error>> {
    let rows: Vec<String> = env::args().skip(1).collect();
    let rows = match rows.is_empty() {
        true => ROWS.map(String::from).to_vec(),
        false => rows,
    };
    for row in rows {
        println!("{row}  {}", told(&row)?);
    }
    Ok(())
}

/// Three cells in a row of 15 sites, two of width 4 and one of width 3; the first may be mirrored.
fn job() -> Job {
    let header = Header {
        rows: 1,
        sites: 15,
        displacement: 7,
        reordering: 1,
        weights: Weights {
            step: 100,
            shift: 10,
            mirror: 50,
            swap: 0,
            filled: None,
        },
    };
    Job::new(header)
        .with(Cell::single(0, 2, [Layout::single(4, [3, 3, 2, 2])]).mirrorable())
        .with(Cell::single(0, 6, [Layout::single(4, [3, 3, 2, 2])]))
        .with(Cell::single(0, 10, [Layout::single(3, [2, 2, 1, 1])]))
}

/// Where the three cells stand in a drawn row: each at the first of its letters.
fn drawn(row: &str) -> Result<Vec<Pose>, String> {
    let pose = |letter: char| {
        let at = row
            .chars()
            .position(|site| site.to_ascii_uppercase() == letter);
        let site = at.ok_or(format!("{row} has no cell {letter}"))?;
        Ok(Pose {
            site: u32::try_from(site).map_err(|_| "the row is too long")?,
            layout: 0,
            mirrored: row.contains(letter.to_ascii_lowercase()),
        })
    };
    ['A', 'B', 'C'].into_iter().map(pose).collect()
}

/// The numbers of a drawn row, or the sentence with every cell that breaks a rule.
pub fn told(row: &str) -> Result<String, Box<dyn Error>> {
    let (job, placement) = (job().text(), placement::text(&drawn(row)?));
    match score(&job, &placement)? {
        Verdict::Legal(numbers) => Ok(format!("legal: {numbers}")),
        Verdict::Broken(_) => Ok(sentence(&job, &placement)?),
    }
}
