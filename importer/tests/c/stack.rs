//! The header says how much stack a call takes; a painted stack shows it.

use crate::building::{build, folder, said, source};
use importer::{score, sentence, Verdict};
use std::array;
use std::collections::BTreeMap;
use std::fs;
use std::process::Command;

const HEADER: &str = include_str!("../../include/refiner.h");
const KB: usize = 1000;

/// A large job as the row of each cell.
pub type Rows = [usize; 64];

/// The traceback goes deepest where the first segment is longest and every tall cell follows it.
pub fn tall_last() -> Rows {
    array::from_fn(|cell| if cell < 40 { 0 } else { 2 })
}

pub fn one_row() -> Rows {
    [0; 64]
}

/// How far apart the given sites are: so far that the given rows are cheapest.
const APART: usize = 12;

/// A job whose given sites are so far apart, at least 4, and whose given rows are legal. Cells have
/// two layouts each.
pub fn job_of(rows: &Rows, apart: usize) -> String {
    let mut job = String::from("J,2,1024,7,1,100,9,8,7\n");
    for (cell, row) in rows.iter().enumerate() {
        job += &format!("C,{row},{},1,2", apart * cell);
        for layout in 0..2 {
            job += &format!(",{}", 4 + 2 * layout);
            for height in 0..if *row == 2 { 8 } else { 4 } {
                job += &format!(",{}", 1 + (cell * 7 + layout * 5 + height * 3) % 15);
            }
        }
        job += "\n";
    }
    job
}

/// The same job with R 2.
fn by_two(job: &str) -> String {
    job.replacen("J,2,1024,7,1,", "J,2,1024,7,2,", 1)
}

/// The same job with a weight of its own for filled steps.
fn weighing_filled(job: &str) -> String {
    job.replacen('J', "K", 1).replacen(",7\n", ",7,50\n", 1)
}

/// The given rows of such a job.
fn given() -> String {
    let line = |cell| format!("{},0,0\n", APART * cell);
    (0..64).map(line).collect()
}

/// The same with one empty site before the first cell: each rule is tried, and the last is broken.
fn at_an_end() -> String {
    given().replacen("0,0,0\n", "1,0,0\n", 1)
}

#[test]
fn the_large_jobs_are_accepted_and_their_given_rows_legal() {
    for rows in [tall_last(), one_row()] {
        let verdict = score(job_of(&rows, APART).as_bytes(), given().as_bytes());
        assert!(matches!(verdict, Ok(Verdict::Legal(_))), "{verdict:?}");
        let said = sentence(job_of(&rows, APART).as_bytes(), at_an_end().as_bytes());
        assert_eq!(said.as_deref(), Ok("one-site row end: cell 1."));
    }
}

/// The most that each function touches, in bytes.
fn touched() -> BTreeMap<String, usize> {
    let folder = folder("stack");
    let program = folder.join("stack");
    // Binding at the first call would take stack too, more on one machine than on another.
    build(&source("stack.c"), &program, &["-pthread", "-Wl,-z,now"]);
    let (job, placement) = (folder.join("job"), folder.join("placement"));
    let write = |path, text: &str| fs::write(path, text).expect("a test may write its files");
    let mut most = BTreeMap::new();
    for rows in [tall_last(), one_row()] {
        let by_one = job_of(&rows, APART);
        let filled = weighing_filled(&by_one);
        for text in [&by_two(&by_one), &by_one, &filled] {
            write(&job, text);
            for stands in [given(), at_an_end()] {
                write(&placement, &stands);
                let lines = said(Command::new(&program).arg(&job).arg(&placement));
                lines.lines().for_each(|line| keep(&mut most, line));
            }
        }
    }
    println!("{most:?}");
    most
}

/// Keeps what a line says a function touches, if it is more than before.
fn keep(most: &mut BTreeMap<String, usize>, line: &str) {
    let (name, bytes) = line.split_once(' ').expect("a name and a number");
    let bytes: usize = bytes.parse().expect("a number of bytes");
    let before = most.entry(name.to_owned()).or_insert(0);
    *before = bytes.max(*before);
}

/// The header's figure for an operation, in bytes: the first number behind its name in the words on
/// the stack.
fn figure(operation: &str) -> usize {
    let words = HEADER.replace("\n *", " ");
    let words = words
        .split_whitespace()
        .skip_while(|word| *word != "Stack:");
    let mut behind = words.skip_while(|word| *word != operation);
    let number = behind.find_map(|word| word.parse::<usize>().ok());
    assert!(behind.next().is_some_and(|unit| unit.starts_with("KB")));
    KB * number.expect("the header has a figure for each operation")
}

#[test]
fn the_header_says_how_much_stack_a_call_takes() {
    let touched = touched();
    for (name, operation) in [
        ("refiner_read", "Read"),
        ("refiner_score", "Score"),
        ("refiner_fault", "Fault"),
        ("refiner_fault_line", "Fault"),
        ("refiner_place", "Place"),
        ("refiner_load", "Load"),
        ("refiner_reasons", "Reasons"),
    ] {
        let (bytes, figure) = (touched[name], figure(operation));
        // A figure is not twice too high, but 1 KB is the least that the header says.
        let near = (figure / 2).min(figure - KB)..=figure;
        assert!(near.contains(&bytes), "{name} takes {bytes} of {figure}");
    }
}
