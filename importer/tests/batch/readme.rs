//! README's section on many jobs shows what is really printed and written.

use super::{batch, counts, folder, names, put, text};
use importer::batch::COLUMNS;
use std::fs;
use std::path::Path;

const README: &str = include_str!("../../../README.md");

/// The blocks of the section, each a text without its indent.
fn blocks() -> Vec<String> {
    let section = README
        .lines()
        .skip_while(|line| *line != "## Many jobs")
        .skip(1)
        .take_while(|line| !line.starts_with("## "));
    let lines: Vec<&str> = section.collect();
    let blocks = lines.split(|line| !line.starts_with("    "));
    let blocks = blocks.filter(|block| !block.is_empty());
    let line = |line: &&str| format!("{}\n", line.trim_start());
    blocks
        .map(|block| block.iter().map(line).collect())
        .collect()
}

#[test]
fn the_examples_give_the_summary_and_the_table_that_are_shown() {
    let folder = folder("readme");
    fs::create_dir(folder.join("examples")).expect("a folder");
    let examples = Path::new(env!("CARGO_MANIFEST_DIR")).join("../examples");
    for name in names(&examples) {
        if name.ends_with(".job") || name.ends_with(".placement") {
            put(&folder.join("examples"), &name, &text(examples.join(&name)));
        }
    }
    let [shown, table] = &blocks()[..] else {
        panic!("the section has another number of blocks");
    };
    let (command, summary) = shown.split_once('\n').expect("a command and its lines");
    let words = command.strip_prefix("$ refine batch ").expect(command);
    let words: Vec<&str> = words.split(' ').collect();
    let (output, notes, status) = batch(&folder, &words);
    assert_eq!((&*notes, status), ("", Some(0)));
    assert_eq!(counts(&output), counts(summary));
    assert_eq!(&text(folder.join("all.csv")), table);
}

/// The names in the first cell of a row: one, several, or from one to another.
fn named(row: &str) -> Vec<&str> {
    let first = row.trim_start_matches('|').split('|').next();
    let words: Vec<&str> = first.unwrap_or_default().split('`').collect();
    let at = |name: &str| COLUMNS.iter().position(|column| *column == name);
    match words[..] {
        [_, from, " to ", to, _] => match (at(from), at(to)) {
            (Some(from), Some(to)) => COLUMNS[from..=to].to_vec(),
            _ => vec![row],
        },
        _ => words.into_iter().skip(1).step_by(2).collect(),
    }
}

#[test]
fn each_column_is_told() {
    let table = README
        .lines()
        .skip_while(|line| *line != "| column | what it has |")
        .skip(2)
        .take_while(|line| line.starts_with('|'));
    let told: Vec<&str> = table.flat_map(named).collect();
    // The job's file needs no words.
    assert_eq!(told, COLUMNS[1..]);
}
