//! The farm's load as README has it made and placed: refusal 8 is a result.

use super::{check_summary, folder, text, REFINE};
use std::process::Command;

const README: &str = include_str!("../../../README.md");

/// The lines of the shell that README shows for the farm's thousand jobs.
fn lines() -> Vec<&'static str> {
    let section = README
        .lines()
        .skip_while(|line| *line != "## A load for the farm")
        .skip_while(|line| line.trim() != "mkdir farm");
    let lines: Vec<&str> = section.take_while(|line| !line.is_empty()).collect();
    assert_eq!(lines.len(), 3, "README shows other lines");
    lines
}

/// Of these seeds 629 alone has a legal placement, as the plain search says too
/// (`trial/tests/load_places.rs`).
#[test]
fn a_run_that_refuses_8_is_no_failed_run() {
    let folder = folder("farm");
    let lines = lines().join("\n");
    let some = lines.replace("$(seq -w 1000)", "$(seq 620 635)");
    assert_ne!(some, lines, "README has other seeds");
    let mut bash = Command::new("bash");
    bash.args(["-c", &format!("refine() {{ \"$REFINE\" \"$@\"; }}\n{some}")]);
    bash.env("REFINE", REFINE).current_dir(&folder);
    let output = bash.output().expect("bash ends");
    let said = |bytes: &[u8]| String::from_utf8_lossy(bytes).into_owned();
    let said = (
        said(&output.stdout),
        said(&output.stderr),
        output.status.code(),
    );
    let counts = "jobs,16 answered,1 refused,8,15 failed,0 taken over,0 placements,0,0,0 saved,0";
    check_summary(said, counts);
    let answer = text(folder.join("farm/629.out"));
    assert!(answer.starts_with("5079,"), "{answer}");
    assert_eq!(text(folder.join("farm/630.out")), "refused,8,0\n");
}
