//! `refine reasons`: the sentence on a placement, refusals as by `refine score`, and wrong words.

use crate::{file, refine, told, WORKED};

const README: &str = include_str!("../../../README.md");
const DESK: &str = include_str!("../../../examples/desk.job");
const EDITED: &str = include_str!("../../../examples/edited.placement");

/// How a run is typed and what a mistake says of it.
const LINE: &str = "the command is `refine reasons JOB PLACEMENT`";

/// Runs a command on two texts.
fn run(command: &str, test: &str, [job, placement]: [&str; 2]) -> (String, String, Option<i32>) {
    let job = file(&format!("reasons_{test}.job"), job);
    let placement = file(&format!("reasons_{test}.placement"), placement);
    told(&refine(&[command, &job, &placement], b""))
}

/// Checks the sentence on a placement of the worked example, which is an answer without a word
/// besides.
fn check(test: &str, placement: &str, sentence: &str) {
    let said = run("reasons", test, [WORKED, placement]);
    assert_eq!(said, (format!("{sentence}\n"), String::new(), Some(0)));
}

#[test]
fn the_sentence_is_printed_and_nothing_besides() {
    check("legal", "2,0,1\n6,0,0\n", "legal.");
    check(
        "choice",
        "2,1,0\n6,0,1\n",
        "choice not offered: cell 1, cell 2.",
    );
    check("outside", "2,0,0\n17,0,0\n", "outside row: cell 2.");
    check(
        "shift",
        "4,0,0\n8,0,0\n",
        "shifted too far: cell 1, cell 2.",
    );
    check("overlap", "3,0,0\n6,0,0\n", "overlap: cell 1, cell 2.");
    check("gap", "2,0,0\n7,0,0\n", "one-site gap: cell 1, cell 2.");
    check("end", "1,0,0\n5,0,0\n", "one-site row end: cell 1.");
}

/// Cell 2 ends before site 8, as cell 3 does in row 1, and the tall cell 4 begins at site 9.
#[test]
fn readme_shows_the_sentence() {
    let said = run("reasons", "readme", [DESK, EDITED]);
    let sentence = "one-site gap: cell 2, cell 3, cell 4.\n";
    assert_eq!(said, (sentence.into(), String::new(), Some(0)));
    let command = "$ refine reasons examples/desk.job examples/edited.placement";
    let block = format!("    {command}\n    {sentence}");
    assert!(README.contains(&block), "README lacks {block}");
    let (verdict, notes, status) = run("score", "readme", [DESK, EDITED]);
    let notes_end = format!("placement:2: {sentence}");
    assert!(status == Some(0) && notes.ends_with(&notes_end), "{notes}");
    let command = "$ refine score examples/desk.job examples/edited.placement";
    let block = format!("    {command}\n    {verdict}    examples/edited.{notes_end}");
    assert!(README.contains(&block), "README lacks {block}");
}

#[test]
fn a_job_without_cells_has_a_legal_placement() {
    let said = run("reasons", "none", ["J,2,9,7,1,1,1,1,1\n", ""]);
    assert_eq!(said, ("legal.\n".into(), String::new(), Some(0)));
}

#[test]
fn refused_texts_are_told_as_by_score() {
    let falls = &*WORKED.replace("C,0,6,0", "C,0,1,0");
    let refused = [
        ("form", ["J,1\n", "2,0,1\n6,0,0\n"], "refused,1,1\n"),
        ("order", [falls, "2,0\n"], "refused,4,3\n"),
        ("line", [WORKED, "2,0,1\n6,0\n"], "refused,5,2\n"),
        ("missing", [WORKED, "2,0,1\n"], "refused,5,2\n"),
    ];
    for (test, texts, answer) in refused {
        let said = run("reasons", test, texts);
        assert_eq!((&*said.0, said.2), (answer, Some(1)));
        assert_eq!(said, run("score", test, texts));
    }
}

#[test]
fn one_text_may_be_standard_input() {
    let job = &*file("reasons_piped.job", WORKED);
    let placement = &*file("reasons_piped.placement", "3,0,0\n6,0,0\n");
    let overlap = ("overlap: cell 1, cell 2.\n".into(), String::new(), Some(0));
    let said = told(&refine(&["reasons", job, "-"], b"3,0,0\n6,0,0\n"));
    assert_eq!(said, overlap);
    let said = told(&refine(&["reasons", "-", placement], WORKED.as_bytes()));
    assert_eq!(said, overlap);
}

/// Checks that the words behind `reasons` are a usage error that begins so.
fn check_usage_error(words: &[&str], mistake: &str) {
    let words = [&["reasons"], words].concat();
    let (output, notes, status) = told(&refine(&words, b""));
    assert_eq!((&*output, status), ("", Some(2)), "{words:?}");
    let first = format!("refine: {mistake}; {LINE}\nusage:\n");
    assert!(notes.starts_with(&first), "{notes}");
}

#[test]
fn other_words_are_usage_errors() {
    let job = &*file("reasons_usage.job", WORKED);
    check_usage_error(&[], "wrong number of arguments: 0");
    check_usage_error(&[job], "wrong number of arguments: 1");
    check_usage_error(&[job, job, job], "wrong number of arguments: 3");
    check_usage_error(&["--check", job, job], "there is no option \"--check\"");
    let both = "job and placement cannot both be standard input";
    check_usage_error(&["-", "-"], both);
    let (output, notes, status) = told(&refine(&["reasons", job, "no/such/file"], b""));
    assert_eq!((&*output, status), ("", Some(2)));
    assert!(
        notes.starts_with("refine: cannot open no/such/file"),
        "{notes}"
    );
}
