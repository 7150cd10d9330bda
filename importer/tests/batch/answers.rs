//! What stands in the outputs.

use super::{batch, check_summary, folder, jobs, names, put, summary, text};
use super::{FALLING, PAST, PAST_ANSWER, REFINE, TIGHT, WORKED, WORKED_ANSWER};
use super::{REORDER, REORDER_ANSWER};
use std::fs;
use std::path::Path;
use std::process::Command;

#[test]
fn each_job_of_a_folder_has_its_answer_beside_it() {
    let folder = jobs("beside");
    fs::create_dir(folder.join("inner.job")).expect("a folder");
    put(&folder, "inner.job/deep.job", WORKED);
    put(&folder, "notes.txt", "no job");
    check_summary(batch(&folder, &["."]), &summary(0));
    assert_eq!(text(folder.join("worked.out")), WORKED_ANSWER);
    assert_eq!(text(folder.join("past.out")), PAST_ANSWER);
    assert_eq!(text(folder.join("tight.out")), "refused,8,0\n");
    assert_eq!(text(folder.join("falling.out")), "refused,4,3\n");
    // Cell 1 is mirrored, cell 4 stands two sites further right.
    let desk = "12,0,2,1,0,50\n0,0,1\n4,0,0\n3,0,0\n12,0,0\n";
    assert_eq!(text(folder.join("desk.out")), desk);
    let all = names(&folder);
    let out = |name: &&String| name.ends_with(".out");
    assert_eq!(all.iter().filter(out).count(), 5, "{all:?}");
    assert_eq!(all.len(), 5 + 5 + 1 + 2, "{all:?}");
}

#[test]
fn an_output_is_what_refine_prints_of_the_job() {
    let folder = jobs("one_by_one");
    let examples = Path::new(env!("CARGO_MANIFEST_DIR")).join("../examples");
    for name in names(&examples) {
        if name.ends_with(".job") {
            put(&folder, &name, &text(examples.join(&name)));
        }
    }
    put(&folder, "empty.job", "");
    put(&folder, "bytes.job", "\u{1b}[2J,\u{fffd}\n");
    put(&folder, "cells.job", "J,2,9,7,1,1000,1000,1000,1000\n");
    let (_, notes, status) = batch(&folder, &["-j", "3", "."]);
    assert_eq!((&*notes, status), ("", Some(0)));
    let mut compared = 0;
    for name in names(&folder) {
        let Some(stem) = name.strip_suffix(".job") else {
            continue;
        };
        let alone = Command::new(REFINE).arg(folder.join(&name)).output();
        let alone = alone.expect("refine ends").stdout;
        let output = text(folder.join(format!("{stem}.out")));
        assert_eq!(output.as_bytes(), alone, "{name}");
        compared += 1;
    }
    assert!(compared >= 10, "{compared}");
}

/// One thread does them all, in the order of their names.
#[test]
fn jobs_with_each_reordering_are_done_in_turn() {
    let folder = folder("reordering");
    let by_two = ["b", "d", "e"];
    for name in ["a", "b", "c", "d", "e", "f"] {
        let is_by_two = by_two.contains(&name);
        let job = if is_by_two { REORDER } else { WORKED };
        put(&folder, format!("{name}.job"), job);
    }
    let counts = "jobs,6 answered,6 failed,0 taken over,0 placements,0,0,0 saved,0";
    check_summary(batch(&folder, &["-j", "1", "."]), counts);
    for name in ["a", "b", "c", "d", "e", "f"] {
        let is_by_two = by_two.contains(&name);
        let answer = if is_by_two {
            REORDER_ANSWER
        } else {
            WORKED_ANSWER
        };
        assert_eq!(text(folder.join(format!("{name}.out"))), answer, "{name}");
    }
}

#[test]
fn a_job_may_be_named_by_itself_whatever_it_is_called() {
    let folder = folder("named");
    put(&folder, "my.v1.job", WORKED);
    put(&folder, "plain", PAST);
    put(&folder, "my.out", TIGHT);
    let words = ["my.v1.job", "./plain", "my.out"];
    let counts = "jobs,3 answered,2 refused,8,1 failed,0 taken over,0";
    let counts = format!("{counts} placements,0,0,0 saved,0");
    check_summary(batch(&folder, &words), &counts);
    assert_eq!(text(folder.join("my.v1.out")), WORKED_ANSWER);
    assert_eq!(text(folder.join("plain.out")), PAST_ANSWER);
    assert_eq!(text(folder.join("my.out.out")), "refused,8,0\n");
    assert_eq!(text(folder.join("my.out")), TIGHT);
}

#[test]
fn a_refused_job_is_a_result() {
    let folder = folder("refused");
    for (name, job) in [("a.job", FALLING), ("b.job", FALLING), ("c.job", TIGHT)] {
        put(&folder, name, job);
    }
    put(&folder, "d.job", "J,1\n");
    let counts = "jobs,4 answered,0 refused,1,1 refused,4,2 refused,8,1 failed,0";
    let counts = format!("{counts} taken over,0 placements,0,0,0 saved,0");
    check_summary(batch(&folder, &["."]), &counts);
}

#[test]
fn the_summary_tells_how_fast_it_was() {
    let folder = jobs("fast");
    let (output, ..) = batch(&folder, &["."]);
    let figure = |lead: &str| -> f64 {
        let line = output.lines().find_map(|line| line.strip_prefix(lead));
        line.and_then(|figure| figure.parse().ok()).expect(lead)
    };
    let (seconds, rate) = (figure("seconds,"), figure("jobs a second,"));
    assert!(rate > 0.0, "{output}");
    // Seconds are rounded to thousandths, the rate to tenths.
    let off = (seconds * rate - 5.0).abs();
    assert!(off <= 0.0006 * rate + 0.06 * seconds, "{output}");
    let (again, ..) = batch(&folder, &["."]);
    assert!(again.ends_with("\njobs a second,0.0\n"), "{again}");
}

#[test]
fn an_empty_folder_is_told_of() {
    let folder = folder("empty");
    let (output, notes, status) = batch(&folder, &["."]);
    assert_eq!(
        (&*notes, status),
        ("refine: there is no *.job in .\n", Some(0))
    );
    assert!(
        output.starts_with("jobs,0\nanswered,0\nfailed,0\n"),
        "{output}"
    );
}
