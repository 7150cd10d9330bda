//! The desk's tools as commands of `refine`, on examples worked by hand; README shows some of them.

mod compare;
mod gaps;
mod readme;
mod whatif;

use std::fs;
use std::process::{Command, Output};

/// Standard output, standard error and exit status.
type Said = (String, String, Option<i32>);

/// Two rows with a tall cell, and how a supplier placed them.
const JOB: &str = include_str!("../../../examples/desk.job");
const PLACEMENT: &str = include_str!("../../../examples/desk.placement");

/// A job led by `K`, worked in `examples.rs`.
const FILLED: &str = include_str!("../../../examples/filled.job");

fn refine(arguments: &[&str]) -> Said {
    let refine = Command::new(env!("CARGO_BIN_EXE_refine"))
        .args(arguments)
        .current_dir(concat!(env!("CARGO_MANIFEST_DIR"), "/.."))
        .output();
    told(&refine.expect("refine ends"))
}

fn told(output: &Output) -> Said {
    let text = |bytes: &[u8]| String::from_utf8_lossy(bytes).into_owned();
    (
        text(&output.stdout),
        text(&output.stderr),
        output.status.code(),
    )
}

/// A file for one test, in the folder that cargo keeps for tests.
fn file(name: &str, text: &str) -> String {
    let path = format!("{}/{name}", env!("CARGO_TARGET_TMPDIR"));
    fs::write(&path, text).expect("a test may write its files");
    path
}

/// Runs a command on a job and a placement, with words behind them.
fn on_pair(command: &str, test: &str, [job, placement]: [&str; 2], words: &[&str]) -> Said {
    let job = file(&format!("{command}_{test}.job"), job);
    let placement = file(&format!("{command}_{test}.placement"), placement);
    refine(&[&[command, &job, &placement], words].concat())
}

/// Checks what is printed as an answer, with nothing on standard error.
fn check_answer(said: Said, output: &str) {
    assert_eq!(said, (output.into(), String::new(), Some(0)));
}

/// Checks that the arguments are a usage error that begins so.
fn check_usage_error(arguments: &[&str], mistake: &str) {
    let (output, notes, status) = refine(arguments);
    assert_eq!((&*output, status), ("", Some(2)));
    let start = format!("refine: {mistake}");
    assert!(notes.starts_with(&start), "{notes}");
}
