//! The manual page: it says what `refine help` says, and the formatters find nothing wrong with it.

use crate::{refine, told, WORKED};
use importer::RULES;
use std::process::{Command, Output, Stdio};

const PAGE: &str = include_str!("../../../docs/refine.1");
const PATH: &str = concat!(env!("CARGO_MANIFEST_DIR"), "/../docs/refine.1");

/// How something is typed, and what is said of it.
type Entry = (String, String);

/// A line without its fonts, quotes and escapes.
fn plain(line: &str) -> String {
    let fonts = ["\\fB", "\\fI", "\\fR", "`"];
    let plain = fonts
        .iter()
        .fold(line.to_string(), |line, font| line.replace(font, ""));
    plain.replace("\\-", "-").trim().to_string()
}

/// The lines of a section of the page.
fn section(name: &str) -> Vec<&'static str> {
    let heading = format!(".SH {name}");
    let lines = PAGE.lines().skip_while(|line| *line != heading).skip(1);
    let lines: Vec<&str> = lines.take_while(|line| !line.starts_with(".SH ")).collect();
    assert!(!lines.is_empty(), "the page has no section {name}");
    lines
}

/// The entries of a section: each begins with `.TP`, has a line on how it is typed, then the words.
fn entries(name: &str) -> Vec<Entry> {
    let lines = section(name);
    let entries = lines.split(|line| *line == ".TP").skip(1);
    let entry = |lines: &[&str]| (plain(lines[0]), plain(&lines[1..].join(" ")));
    entries.map(entry).collect()
}

/// The entries of a part of the usage text.
fn usage_entries(part: &str) -> Vec<Entry> {
    let (usage, ..) = told(&refine(&["help"], b""));
    let lines = usage.lines().skip_while(|line| *line != part).skip(1);
    let lines: Vec<&str> = lines.take_while(|line| line.starts_with(' ')).collect();
    let entry = |lines: &[&str]| (plain(lines[0]), plain(lines[1]));
    lines.chunks(2).map(entry).collect()
}

#[test]
fn the_synopsis_is_the_usage() {
    let lines = section("SYNOPSIS").into_iter();
    let shown: Vec<String> = lines
        .filter(|line| !line.starts_with('.'))
        .map(plain)
        .collect();
    let typed: Vec<String> = usage_entries("usage:")
        .into_iter()
        .map(|entry| entry.0)
        .collect();
    assert_eq!(shown, typed);
}

#[test]
fn commands_and_options_are_those_of_the_usage() {
    assert_eq!(entries("COMMANDS"), usage_entries("usage:"));
    assert_eq!(entries("OPTIONS"), usage_entries("options:"));
}

#[test]
fn exit_statuses_are_those_of_the_usage() {
    let (usage, ..) = told(&refine(&["help"], b""));
    let statuses = entries("EXIT STATUS").into_iter();
    let statuses: Vec<String> = statuses
        .map(|(number, says)| format!("{number} {says}"))
        .collect();
    let line = format!("\nExit status: {}.\n", statuses.join(", "));
    assert!(usage.ends_with(&line), "{line}");
}

#[test]
fn the_page_has_the_version_and_the_worked_example() {
    let title = PAGE.lines().next().unwrap_or_default();
    let version = concat!("\"refiner ", env!("CARGO_PKG_VERSION"), "\"");
    assert!(
        title.starts_with(".TH REFINE 1 ") && title.contains(version),
        "{title}"
    );
    let (answer, ..) = told(&refine(&[], WORKED.as_bytes()));
    for text in [WORKED, &answer] {
        assert!(PAGE.contains(&format!(".nf\n{text}.fi\n")), "{text}");
    }
}

#[test]
fn the_page_has_the_phrases_of_the_rules() {
    let text = section("REASONS IN WORDS").join(" ");
    let phrases: Vec<&str> = RULES.iter().map(|rule| rule.phrase).collect();
    let list = format!(": {}.", phrases.join(", "));
    assert!(text.ends_with(&list), "{text}");
}

/// What a formatter does with the page; none where it is not installed.
fn formatted(program: &str, words: &[&str]) -> Option<Output> {
    let mut formatter = Command::new(program);
    formatter.args(words).arg(PATH).stdin(Stdio::null());
    formatter.env("MANWIDTH", "100").env("LC_ALL", "C.UTF-8");
    // A small system has a `man` that only says so.
    let works = |output: &Output| !told(output).0.contains("has been minimized");
    let output = formatter.output().ok().filter(works);
    if output.is_none() {
        eprintln!("left out, because this is not installed: {program}");
    }
    output
}

#[test]
fn formatters_find_nothing_wrong() {
    let checks: [(&str, &[&str]); 3] = [
        ("man", &["--warnings=w", "-l"]),
        ("groff", &["-man", "-Tutf8", "-ww", "-z"]),
        ("mandoc", &["-Tlint", "-Wwarning"]),
    ];
    for (program, words) in checks {
        let Some(output) = formatted(program, words) else {
            continue;
        };
        let (shown, notes, status) = told(&output);
        assert_eq!((&*notes, status), ("", Some(0)), "{program}: {shown}");
        if program == "man" {
            assert!(
                shown.contains("refine score [--check] JOB PLACEMENT"),
                "{shown}"
            );
        }
    }
}
