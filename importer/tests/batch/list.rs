//! Paths from a list, words of the command line, and names that clash.

use super::{batch, batch_of, check_summary, folder, jobs, names, put, summary, text};
use super::{PAST, PAST_ANSWER, WORKED, WORKED_ANSWER};
use std::fs;

const COMMAND: &str = "the command is `refine batch [-j N] [--csv FILE] [--html DIR] PATH...`";

#[test]
fn a_list_names_jobs_and_folders() {
    let folder = jobs("list");
    fs::create_dir(folder.join("more")).expect("a folder");
    put(&folder, "more/a b.job", WORKED);
    put(&folder, "more/c.job", PAST);
    let list = b"tight.job\n\nmore\nworked.job";
    let words = ["--csv", "all.csv", "past.job", "-", "desk.job"];
    let counts = "jobs,6 answered,5 refused,8,1 failed,0 taken over,0";
    let counts = format!("{counts} placements,1,0,0 saved,288");
    check_summary(batch_of(&folder, &words, list), &counts);
    let csv = text(folder.join("all.csv"));
    let order = [
        "past.job,",
        "tight.job,",
        "more/a b.job,",
        "more/c.job,",
        "worked.job,",
        "desk.job,",
    ];
    let lines: Vec<&str> = csv.lines().skip(1).collect();
    assert_eq!(lines.len(), order.len(), "{csv}");
    for (line, start) in lines.iter().zip(order) {
        assert!(line.starts_with(start), "{line}");
    }
    assert_eq!(text(folder.join("more/a b.out")), WORKED_ANSWER);
    assert_eq!(text(folder.join("more/c.out")), PAST_ANSWER);
}

#[test]
fn an_empty_list_has_no_jobs() {
    let counts = "jobs,0 answered,0 failed,0 taken over,0 placements,0,0,0 saved,0";
    check_summary(batch_of(&folder("no_list"), &["-"], b""), counts);
}

/// Checks that the words are a usage mistake, and that nothing was done.
fn check_mistake(test: &str, words: &[&str], mistake: &str) {
    let folder = jobs(test);
    put(&folder, "worked", WORKED);
    let before = names(&folder);
    let (output, notes, status) = batch(&folder, words);
    assert_eq!((&*output, status), ("", Some(2)), "{words:?}");
    let start = format!("refine: {mistake}; {COMMAND}\nusage:\n");
    assert!(notes.starts_with(&start), "{notes}");
    assert_eq!(names(&folder), before, "{words:?}");
}

#[test]
fn two_jobs_with_one_output_are_a_mistake() {
    let same = |one: &str, other: &str, file: &str| {
        format!("{one} and {other} have the same output, {file}")
    };
    let check = |words: &[&str], mistake: &str| check_mistake("clash", words, mistake);
    check(
        &["worked.job", "past.job", "worked"],
        &same("worked.job", "worked", "worked.out"),
    );
    check(
        &[".", "past.job"],
        &same("./past.job", "past.job", "past.out"),
    );
    check(
        &["past.job", "./../clash/past.job"],
        &same("past.job", "./../clash/past.job", "./../clash/past.out"),
    );
    check(
        &["--csv", "./past.out", "past.job"],
        &same("past.job", "./past.out", "./past.out"),
    );
    check(
        &["--csv", "worked.job", "."],
        "./worked.job would be written over",
    );
    check(
        &["--csv", "desk.placement", "."],
        "./desk.placement would be written over",
    );
}

#[test]
fn the_words_of_the_command() {
    let check = |words: &[&str], mistake: &str| check_mistake("words", words, mistake);
    check(&[], "wrong number of arguments: 0");
    check(&["-", "-"], "only one list can be standard input");
    check(&["--polish", "."], "there is no option \"--polish\"");
    for threads in ["0", "1025", "4294967295"] {
        let mistake = format!("{threads} threads; 1 to 1024 are allowed");
        check(&["-j", threads, "."], &mistake);
    }
    check(&["-j", "two", "."], "-j needs a number behind it");
    check(&[".", "--threads"], "--threads needs a number behind it");
    check(&[".", "--csv"], "--csv needs a path behind it");
    check(&["--csv", "-", "."], "--csv needs a path behind it");
    check(&["--html", "", "."], "--html needs a path behind it");
}

#[test]
fn any_number_of_threads_may_be_asked_for() {
    let folder = jobs("many_threads");
    check_summary(batch(&folder, &["-j", "1024", "."]), &summary(0));
}
