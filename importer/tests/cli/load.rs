//! `refine load`: a job of the farm's load, its refusal, and words that are no numbers.

use crate::{refine, told};

const README: &str = include_str!("../../../README.md");

/// Worked out from document 02 by a program of its own.
const FOUR_CELLS: &str = "\
J,2,1024,7,1,100,1,100,50
C,1,4,0,2,15,2,3,2,3,4,3,2,3,1
C,2,12,1,2,9,1,2,3,1,2,1,4,4,15,4,3,2,1,1,1,2,1
C,0,23,1,1,16,2,1,3,3
C,2,35,0,2,16,3,4,4,4,3,3,4,3,6,4,4,3,3,4,1,2,2
";

/// How a run is typed and what a mistake says of it.
const LINE: &str = "the command is `refine load SEED CELLS`";

/// What a seed and a count give, which must be an answer without a word besides.
fn job(seed: &str, cells: &str) -> String {
    let (output, notes, status) = told(&refine(&["load", seed, cells], b""));
    assert_eq!((&*notes, status), ("", Some(0)));
    output
}

#[test]
fn the_job_is_printed_and_nothing_besides() {
    assert_eq!(job("5", "4"), FOUR_CELLS);
    assert_eq!(job("7", "0"), "J,2,1024,7,1,100,1,100,50\n");
    // Seeds of a list have zeros before them, for the order of names.
    assert_eq!(job("0005", "04"), FOUR_CELLS);
    assert_eq!(job("4294967295", "64").lines().count(), 65);
}

#[test]
fn seed_0_is_taken_as_1() {
    assert_eq!(job("0", "64"), job("1", "64"));
    assert_ne!(job("2", "64"), job("1", "64"));
}

#[test]
fn readme_shows_the_job() {
    let shown = FOUR_CELLS.lines().map(|line| format!("    {line}\n"));
    let shown: String = shown.collect();
    let block = format!("    $ refine load 5 4\n{shown}");
    assert!(README.contains(&block), "README lacks {block}");
}

#[test]
fn refine_reads_it() {
    let job = job("5", "4");
    let (output, notes, status) = told(&refine(&["-p"], job.as_bytes()));
    let (verdict, ..) = told(&refine(
        &["score", "-", &placement(&output)],
        job.as_bytes(),
    ));
    assert_eq!((&*notes, status), ("", Some(0)));
    assert!(verdict.starts_with("legal,"), "{verdict}");
}

fn placement(text: &str) -> String {
    crate::file("load.placement", text)
}

#[test]
fn too_many_cells_are_refused() {
    let note = "refine: refusal 9: the count of cells of a load is over 64; \
                ask for at most 64 cells\n";
    for cells in ["65", "100", "4294967295"] {
        let said = told(&refine(&["load", "1", cells], b""));
        assert_eq!(said, ("refused,9,0\n".into(), note.into(), Some(1)));
    }
}

/// Checks that the words behind `load` are a usage error that begins so.
fn check_usage_error(words: &[&str], mistake: &str) {
    let words = [&["load"], words].concat();
    let (output, notes, status) = told(&refine(&words, b""));
    assert_eq!((&*output, status), ("", Some(2)), "{words:?}");
    let first = format!("refine: {mistake}; {LINE}\nusage:\n");
    assert!(notes.starts_with(&first), "{notes}");
}

#[test]
fn words_that_are_no_numbers_are_usage_errors() {
    let allowed = "it is a number from 0 to 4294967295";
    for word in [
        "x",
        "",
        "1x",
        "+1",
        "1.0",
        " 1",
        "0x10",
        "4294967296",
        "٣",
        "-",
    ] {
        check_usage_error(&[word, "4"], &format!("SEED is {word:?}; {allowed}"));
        check_usage_error(&["4", word], &format!("CELLS is {word:?}; {allowed}"));
    }
    check_usage_error(&["--", "-1", "4"], &format!("SEED is \"-1\"; {allowed}"));
    check_usage_error(&["-1", "4"], "there is no option \"-1\"");
}

#[test]
fn both_numbers_are_needed() {
    check_usage_error(&[], "wrong number of arguments: 0");
    check_usage_error(&["1"], "wrong number of arguments: 1");
    check_usage_error(&["1", "2", "3"], "wrong number of arguments: 3");
}
