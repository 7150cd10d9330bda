//! The words of the command line: commands, options, files, and help.

use crate::{file, refine, told, WORKED};
use std::process::Command;

const ANSWER: &str = "100,0,0,1,0,0\n2,0,1\n6,0,0\n";

/// How each command is typed.
const LINES: [&str; 4] = [
    "refine [-p] [JOB]",
    "refine score [--check] JOB PLACEMENT",
    "refine help [COMMAND]",
    "refine --version",
];

/// Checks that the words give a text as an answer, with nothing on standard error.
fn check_answer(words: &[&str], input: &str, answer: &str) {
    let said = told(&refine(words, input.as_bytes()));
    assert_eq!(said, (answer.into(), String::new(), Some(0)), "{words:?}");
}

#[test]
fn help_is_an_answer() {
    let (usage, notes, status) = told(&refine(&["help"], b""));
    assert_eq!((&*notes, status), ("", Some(0)));
    for line in LINES {
        assert!(usage.contains(&format!("\n  {line}\n")), "{usage}");
    }
    check_answer(&["--help"], "", &usage);
    check_answer(&["-h"], "", &usage);
}

#[test]
fn each_command_has_its_help() {
    let asked: [(&[&str], &str); 8] = [
        (&["-p", "--help"], LINES[0]),
        (&["score", "--help"], LINES[1]),
        (&["score", "no/such/file", "-h"], LINES[1]),
        (&["help", "score"], LINES[1]),
        (&["--help", "score"], LINES[1]),
        (&["help", "help"], LINES[2]),
        (&["--version", "--help"], LINES[3]),
        (&["help", "--version"], LINES[3]),
    ];
    for (words, own) in asked {
        let (usage, notes, status) = told(&refine(words, b""));
        assert_eq!((&*notes, status), ("", Some(0)), "{words:?}");
        let shown = |line: &&str| usage.contains(&format!("\n  {line}\n"));
        let shown: Vec<&str> = LINES.into_iter().filter(shown).collect();
        assert_eq!(shown, [own], "{words:?}");
    }
}

#[test]
fn each_help_says_the_exit_statuses_once() {
    let statuses = "Exit status: 0 an answer, 1 a refusal or a check that is not passed, \
                    2 a usage or input error.\n";
    for words in [&["help"][..], &["score", "--help"], &["help", "help"]] {
        let (usage, ..) = told(&refine(words, b""));
        assert!(usage.ends_with(statuses), "{usage}");
        assert_eq!(usage.matches("Exit status").count(), 1, "{usage}");
    }
}

/// Checks that the words are a usage error: the mistake, then the usage, on standard error.
fn check_usage_error(words: &[&str], mistake: &str) {
    let (usage, ..) = told(&refine(&["help"], b""));
    let said = told(&refine(words, WORKED.as_bytes()));
    let expected = format!("refine: {mistake}\n{usage}");
    assert_eq!(said, (String::new(), expected, Some(2)));
}

#[test]
fn an_unknown_word_is_named() {
    let none = |word| format!("there is no command and no file \"{word}\"; see `refine --help`");
    for word in ["polish", "", "no/such/file"] {
        let said = told(&refine(&[word], WORKED.as_bytes()));
        let expected = format!("refine: {}\n", none(word));
        assert_eq!(said, (String::new(), expected, Some(2)));
    }
    check_usage_error(&["polish", "help"], "there is no command \"polish\"");
    check_usage_error(&["help", "polish"], "there is no command \"polish\"");
}

#[test]
fn an_unknown_option_is_named() {
    let place = "the command is `refine [-p] [JOB]`";
    for word in ["--polish", "-x", "-pp", "--check"] {
        let mistake = format!("there is no option \"{word}\"; {place}");
        check_usage_error(&[word], &mistake);
        check_usage_error(&["-p", word, "-"], &mistake);
    }
    let score = format!("the command is `{}`", LINES[1]);
    let mistake = format!("there is no option \"-p\"; {score}");
    check_usage_error(&["score", "-", "-", "-p"], &mistake);
}

#[test]
fn another_number_of_arguments_is_a_usage_error() {
    let job = &*file("count.job", WORKED);
    let wrong: [(&[&str], usize, &str); 6] = [
        (&["score"], 0, LINES[1]),
        (&["score", job], 1, LINES[1]),
        (&["score", "--check", job, job, job], 3, LINES[1]),
        (&["-", job], 2, LINES[0]),
        (&["help", "score", "help"], 2, LINES[2]),
        (&["--version", "score"], 1, LINES[3]),
    ];
    for (words, count, line) in wrong {
        let mistake = format!("wrong number of arguments: {count}; the command is `{line}`");
        check_usage_error(words, &mistake);
    }
}

#[test]
fn a_job_comes_from_a_file_or_from_standard_input() {
    let job = &*file("words.job", WORKED);
    check_answer(&[], WORKED, ANSWER);
    check_answer(&["-"], WORKED, ANSWER);
    check_answer(&[job], "", ANSWER);
    check_answer(&["--", job], "", ANSWER);
}

#[test]
fn a_refused_file_is_called_by_its_name() {
    let job = file("short.job", "J,1\n");
    let (output, notes, status) = told(&refine(&[&job], WORKED.as_bytes()));
    assert_eq!((&*output, status), ("refused,1,1\n", Some(1)));
    assert!(notes.contains("/short.job:1: 2 fields, "), "{notes}");
}

/// A file whose name is a command's, or an option's.
#[test]
fn files_with_odd_names_can_be_said() {
    let folder = concat!(env!("CARGO_TARGET_TMPDIR"), "/odd_names");
    std::fs::create_dir_all(folder).expect("a test may make its folder");
    for name in ["score", "-p"] {
        file(&format!("odd_names/{name}"), WORKED);
    }
    for words in [&["./score"][..], &["--", "score"], &["--", "-p"], &["./-p"]] {
        let mut refine = Command::new(env!("CARGO_BIN_EXE_refine"));
        let output = refine.args(words).current_dir(folder).output();
        let said = told(&output.expect("refine ends"));
        assert_eq!(said, (ANSWER.into(), String::new(), Some(0)), "{words:?}");
    }
}

#[test]
fn the_placement_alone() {
    let job = &*file("alone.job", WORKED);
    let placement = "2,0,1\n6,0,0\n";
    for option in ["-p", "--placement-only"] {
        check_answer(&[option], WORKED, placement);
        check_answer(&[option, job], "", placement);
        check_answer(&[job, option], "", placement);
    }
    check_answer(&["-p"], "J,2,9,7,1,1000,1000,1000,1000\n", "");
    // It is what `refine score` reads.
    check_answer(&["score", job, "-"], placement, "legal,100,0,0,1,0,0\n");
}

/// No reader takes a refusal for a placement, as it would an empty text.
#[test]
fn a_refusal_is_printed_in_place_of_the_placement() {
    let cell = "C,0,0,0,1,3,1,1,1,1\n";
    let job = format!("J,1,5,7,1,1,1,1,1\n{cell}{cell}");
    let whole = told(&refine(&[], job.as_bytes()));
    assert_eq!((&*whole.0, whole.2), ("refused,8,0\n", Some(1)));
    assert_eq!(told(&refine(&["-p"], job.as_bytes())), whole);
    let job = file("no_placement.job", &job);
    let (output, _, status) = told(&refine(&["score", &job, "-"], whole.0.as_bytes()));
    assert_eq!((&*output, status), ("refused,5,1\n", Some(1)));
}

#[test]
fn score_reads_one_text_from_standard_input() {
    let job = &*file("piped.job", WORKED);
    let placement = &*file("piped.placement", "2,0,1\n6,0,0\n");
    let legal = "legal,100,0,0,1,0,0\n";
    check_answer(&["score", "-", placement], WORKED, legal);
    check_answer(&["score", job, "-"], "2,0,1\n6,0,0\n", legal);
    let both = "job and placement cannot both be standard input";
    let mistake = format!("{both}; the command is `{}`", LINES[1]);
    check_usage_error(&["score", "-", "-"], &mistake);
    let (output, notes, status) = told(&refine(&["score", job, "-"], b"2,0,1\n7,0\n"));
    assert_eq!((&*output, status), ("refused,5,2\n", Some(1)));
    assert!(notes.contains("\n<stdin>:2: 2 fields, "), "{notes}");
}

#[test]
fn a_check_fails_where_a_rule_is_broken() {
    let job = &*file("check.job", WORKED);
    let texts = [
        ("2,0,1\n6,0,0\n", "legal,100,0,0,1,0,0\n", 0, 0),
        ("2,0,0\n7,0,0\n", "broken,5,1\n", 0, 1),
        ("2,0,0\n7,0\n", "refused,5,2\n", 1, 1),
    ];
    for (placement, answer, alone, checked) in texts {
        let said = told(&refine(&["score", job, "-"], placement.as_bytes()));
        assert_eq!((&*said.0, said.2), (answer, Some(alone)));
        let check = &["score", "--check", job, "-"];
        let (output, notes, status) = told(&refine(check, placement.as_bytes()));
        assert_eq!((output, notes), (said.0, said.1));
        assert_eq!(status, Some(checked));
    }
}
