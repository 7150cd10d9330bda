//! README and the C header show the host's tables row by row, in the same words: refusals, rules,
//! and the commands of `refine`. README declares the same C functions as the header, and both show
//! the forms of a first line.

use importer::explain::job_line;
use importer::{sentence, Broken, Refused, REFUSALS, RULES};
use std::process::Command;

const README: &str = include_str!("../../README.md");
const HEADER: &str = include_str!("../include/refiner.h");

/// The cells of a table's row, with single spaces between words.
type Row = Vec<String>;

fn words(text: &str) -> String {
    text.split_whitespace().collect::<Vec<_>>().join(" ")
}

/// The first table behind a heading of README, without its own two heading lines.
fn readme_rows(heading: &str) -> Vec<Row> {
    README
        .lines()
        .skip_while(|line| *line != heading)
        .skip_while(|line| !line.starts_with('|'))
        .take_while(|line| line.starts_with('|'))
        .skip(2)
        .map(|line| line.trim_matches('|').split('|').map(words).collect())
        .collect()
}

/// The header's table below a heading. A row begins with its number; a line that begins with a
/// space goes on with the row above it.
fn header_rows(heading: &str) -> Vec<Row> {
    let lines = HEADER
        .lines()
        .skip_while(|line| words(line) != heading)
        .skip(1)
        .map_while(|line| line.strip_prefix(" *   "));
    let mut rows: Vec<Row> = Vec::new();
    for line in lines {
        match (line.split_once(' '), rows.last_mut()) {
            (Some(("", more)), Some(row)) => row[1] += &format!(" {}", words(more)),
            (Some((number, meaning)), _) => rows.push(vec![number.into(), words(meaning)]),
            (None, _) => rows.push(vec![line.into()]),
        }
    }
    rows
}

/// Fails with the first row that is missing or surplus, then if rows stand twice or in another
/// order.
fn check_rows(place: &str, shown: &[Row], table: &[Row]) {
    for row in table {
        assert!(shown.contains(row), "{place} lacks the row {row:?}");
    }
    for row in shown {
        assert!(table.contains(row), "{place} has a row too many: {row:?}");
    }
    assert_eq!(shown, table, "{place} has a row twice, or another order");
}

#[test]
fn readme_shows_each_refusal() {
    let row = |entry: &importer::Refusal| {
        vec![
            entry.number.to_string(),
            words(entry.meaning),
            words(entry.remedy),
        ]
    };
    let table: Vec<Row> = REFUSALS.iter().map(row).collect();
    check_rows("README", &readme_rows("## Refusals"), &table);
}

#[test]
fn the_header_shows_each_refusal() {
    let row = |entry: &importer::Refusal| vec![entry.number.to_string(), words(entry.meaning)];
    let table: Vec<Row> = REFUSALS.iter().map(row).collect();
    check_rows("refiner.h", &header_rows("* number meaning"), &table);
}

#[test]
fn each_refusal_number_stands_once_in_rising_order() {
    assert!(REFUSALS
        .windows(2)
        .all(|pair| pair[0].number < pair[1].number));
}

#[test]
fn a_refusal_is_told_in_the_words_of_its_entry() {
    for entry in REFUSALS {
        let refused = Refused {
            number: entry.number,
            line: 12,
        };
        assert_eq!(refused.reason(), entry.meaning);
        assert_eq!(refused.remedy(), entry.remedy);
        let told = format!(
            "refusal {} at line 12: {}; {}",
            entry.number, entry.meaning, entry.remedy
        );
        assert_eq!(refused.to_string(), told);
    }
}

#[test]
fn a_refusal_that_the_table_lacks_is_told_too() {
    for number in [0, 999, u32::MAX] {
        let told = Refused { number, line: 0 }.to_string();
        let start = format!("refusal {number}: the refiner gave a number that this program");
        assert!(told.starts_with(&start), "{told}");
        assert!(told.ends_with("from the same sources"), "{told}");
    }
}

/// The rules as rows of some of their columns.
fn rule_rows(columns: impl Fn(&importer::Rule) -> Vec<&str>) -> Vec<Row> {
    let row = |rule: &importer::Rule| {
        let cells = columns(rule).into_iter().map(words);
        [rule.number.to_string()].into_iter().chain(cells).collect()
    };
    RULES.iter().map(row).collect()
}

#[test]
fn readme_and_header_show_each_rule() {
    let table = rule_rows(|rule| vec![rule.phrase, rule.asks]);
    let shown = readme_rows("## A placement and its rules");
    check_rows("README", &shown, &table);
    let shown = header_rows("* rule what it asks");
    check_rows("the header", &shown, &rule_rows(|rule| vec![rule.asks]));
    let shown = header_rows("* rule phrase");
    check_rows("the header", &shown, &rule_rows(|rule| vec![rule.phrase]));
}

/// Two cells of one site, tall or in row 0, with D 2.
fn two_cells(row: u32, reordering: u32) -> String {
    let heights = if row == 2 { ",1,1,1,1" } else { "" };
    let cell = format!("C,{row},1,0,1,1,1,1,1,1{heights}\n");
    format!("J,2,9,2,{reordering},1,1,1,1\n{cell}{cell}")
}

#[test]
fn phrases_are_those_of_the_refiner() {
    let single = two_cells(0, 1);
    let broken = [
        (&single, "2,1,0\n3,0,0\n"),
        (&single, "2,0,0\n9,0,0\n"),
        (&single, "2,0,0\n5,0,0\n"),
        (&single, "2,0,0\n2,0,0\n"),
        (&single, "0,0,0\n2,0,0\n"),
        (&two_cells(0, 0), "3,0,0\n2,0,0\n"),
        (&two_cells(2, 1), "3,0,0\n2,0,0\n"),
        (&single, "1,0,0\n2,0,0\n"),
    ];
    assert_eq!(broken.len(), RULES.len());
    for (rule, (job, placement)) in RULES.iter().zip(broken) {
        let said = sentence(job.as_bytes(), placement.as_bytes());
        let said = said.expect("both texts are accepted");
        let phrase = said.split_once(": ").map(|(phrase, _)| phrase);
        assert_eq!(phrase, Some(rule.phrase), "{said}");
    }
}

#[test]
fn rules_are_numbered_from_1_in_their_order() {
    let numbers: Vec<u32> = RULES.iter().map(|rule| rule.number).collect();
    let counted: Vec<u32> = (1..).take(RULES.len()).collect();
    assert_eq!(numbers, counted);
}

#[test]
fn a_broken_rule_is_told_in_the_words_of_its_entry() {
    for entry in RULES {
        let broken = Broken {
            rule: entry.number,
            cell: 1,
        };
        assert_eq!(broken.meaning(), entry.asks);
    }
    let broken = Broken { rule: 999, cell: 1 };
    assert_eq!(broken.meaning(), "a rule that this program does not know");
}

/// A part of the usage text as rows: how a command or an option is typed, and below it what it
/// prints or does.
fn usage_rows(part: &str) -> Vec<Row> {
    let refine = Command::new(env!("CARGO_BIN_EXE_refine"))
        .arg("help")
        .output();
    let usage = String::from_utf8(refine.expect("refine ends").stdout).expect("usage is a text");
    let lines = usage.lines().skip_while(|line| *line != part).skip(1);
    let lines: Vec<&str> = lines.take_while(|line| line.starts_with(' ')).collect();
    lines
        .chunks(2)
        .map(|entry| vec![format!("`{}`", words(entry[0])), words(entry[1])])
        .collect()
}

#[test]
fn readme_shows_each_command() {
    let table = usage_rows("usage:");
    check_rows("README", &readme_rows("### Commands"), &table);
}

#[test]
fn readme_shows_each_option() {
    let table = usage_rows("options:");
    check_rows("README", &readme_rows("### Options"), &table);
}

/// The C functions that a text declares.
fn declared(text: &str) -> Vec<String> {
    let up_to_semicolon = |rest: &str| rest.split(';').next().map_or(String::new(), words);
    let declarations = text.split("uint32_t refiner_").skip(1);
    declarations.map(up_to_semicolon).collect()
}

#[test]
fn readme_declares_the_functions_of_the_header() {
    let header = declared(HEADER);
    assert!(!header.is_empty(), "the header declares nothing");
    assert_eq!(declared(README), header);
}

/// The form of a first line with this lead, as it is told of one that lacks all other fields.
fn first_line(lead: &str) -> String {
    let refused = Refused { number: 1, line: 1 };
    let words = job_line(format!("{lead}\n").as_bytes(), &refused);
    let words = words.expect("the line lacks fields");
    let form = words.split_once(": ").map(|(_, form)| form.to_string());
    form.expect("the form stands behind a colon")
}

#[test]
fn readme_and_header_show_the_forms_of_a_first_line() {
    for lead in ["J", "K"] {
        let form = first_line(lead);
        assert!(form.starts_with(&format!("{lead},rows,")), "{form}");
        let in_readme = format!("`{form}`");
        assert!(README.contains(&in_readme), "README lacks {form}");
        let in_header = format!("\n *   {form}\n");
        assert!(HEADER.contains(&in_header), "the header lacks {form}");
    }
}
