//! A run that was interrupted and is started again.

use super::{batch, check_summary, folder, jobs, names, put, summary, text, touch};
use super::{FILLED, FILLED_ANSWER, PAST, PAST_ANSWER, REFINE, TIGHT, WORKED, WORKED_ANSWER};
use std::collections::BTreeMap;
use std::fs;
use std::path::Path;
use std::process::{Command, Stdio};
use std::thread;
use std::time::{Duration, SystemTime};

/// The outputs of a folder by name.
fn outputs(folder: &Path) -> BTreeMap<String, String> {
    let names = names(folder).into_iter();
    let outputs = names.filter(|name| name.contains(".out"));
    outputs
        .map(|name| (name.clone(), text(folder.join(&name))))
        .collect()
}

fn changed(folder: &Path, name: &str) -> SystemTime {
    let found = fs::metadata(folder.join(name)).expect("the file is there");
    found.modified().expect("it has a time")
}

#[test]
fn only_what_is_missing_is_done_anew() {
    let folder = jobs("missing");
    let words = ["--csv", "all.csv", "."];
    check_summary(batch(&folder, &words), &summary(0));
    let (whole, csv) = (outputs(&folder), text(folder.join("all.csv")));
    let kept = ["desk.out", "falling.out", "tight.out"];
    for name in kept {
        touch(&folder.join(name), -30);
    }
    let before = kept.map(|name| changed(&folder, name));
    for name in ["past.out", "worked.out", "all.csv"] {
        fs::remove_file(folder.join(name)).expect("it was written");
    }
    put(&folder, "worked.out.part", "100,0,0,1,0,0\n2,0");
    check_summary(batch(&folder, &words), &summary(3));
    assert_eq!(outputs(&folder), whole);
    assert_eq!(text(folder.join("all.csv")), csv);
    assert_eq!(kept.map(|name| changed(&folder, name)), before);
}

/// A pipe that nobody writes to holds the run up in the middle; then it is killed.
#[cfg(unix)]
#[test]
fn a_run_that_is_killed_goes_on_where_it_was() {
    let folder = folder("killed");
    for (name, job) in [("a", WORKED), ("b", TIGHT), ("d", WORKED)] {
        put(&folder, format!("{name}.job"), job);
    }
    let pipe = folder.join("c.job");
    let made = Command::new("mkfifo").arg(&pipe).status();
    assert!(made.expect("mkfifo runs").success());
    let mut child = Command::new(REFINE)
        .args(["batch", "-j", "1", "."])
        .current_dir(&folder)
        .stdout(Stdio::null())
        .spawn()
        .expect("refine starts");
    let waited = (0..1000).find(|_| {
        thread::sleep(Duration::from_millis(10));
        folder.join("b.out").exists()
    });
    child.kill().expect("it waits for the pipe");
    child.wait().expect("it is gone");
    assert!(waited.is_some(), "b.out was not written");
    assert!(!folder.join("d.out").exists());
    fs::remove_file(&pipe).expect("the pipe is there");
    put(&folder, "c.job", PAST);
    let counts = "jobs,4 answered,3 refused,8,1 failed,0 taken over,2";
    let counts = format!("{counts} placements,0,0,0 saved,0");
    check_summary(batch(&folder, &["."]), &counts);
    let answers = [
        ("a.out", WORKED_ANSWER),
        ("b.out", "refused,8,0\n"),
        ("c.out", PAST_ANSWER),
        ("d.out", WORKED_ANSWER),
    ];
    let answers = answers.map(|(name, answer)| (name.to_string(), answer.to_string()));
    assert_eq!(outputs(&folder), BTreeMap::from(answers));
}

#[test]
fn an_output_older_than_its_texts_is_done_anew() {
    let folder = jobs("older");
    check_summary(batch(&folder, &["."]), &summary(0));
    check_summary(batch(&folder, &["."]), &summary(5));
    touch(&folder.join("worked.job"), 60);
    check_summary(batch(&folder, &["."]), &summary(4));
    touch(&folder.join("worked.job"), -60);
    touch(&folder.join("desk.placement"), 60);
    check_summary(batch(&folder, &["."]), &summary(4));
}

#[test]
fn an_output_that_is_not_the_jobs_is_done_anew() {
    let wrong = [
        "",
        "100,0,0,1,0,0\n",
        "100,0,0,1,0,0\n2,0,1\n6,0,0",
        "101,0,0,1,0,0\n2,0,1\n6,0,0\n",
        "100,0,0,1,0,0\n2,0,1\n7,0,0\n",
        "refused,4,3\n",
        "refused,8,0",
        PAST_ANSWER,
    ];
    let folder = jobs("wrong");
    check_summary(batch(&folder, &["."]), &summary(0));
    for output in wrong {
        fs::write(folder.join("worked.out"), output).expect("a test may write");
        check_summary(batch(&folder, &["."]), &summary(4));
        assert_eq!(text(folder.join("worked.out")), WORKED_ANSWER, "{output}");
    }
}

/// What an earlier version wrote of a job led by `K` was a refusal; it is done anew, as is a line
/// without the filled steps, or with other ones.
#[test]
fn the_filled_steps_are_the_jobs_too() {
    let folder = folder("filled_again");
    put(&folder, "a.job", FILLED);
    let counts = |taken_over| {
        let counts = "jobs,1 answered,1 failed,0 taken over";
        format!("{counts},{taken_over} placements,0,0,0 saved,0")
    };
    check_summary(batch(&folder, &["."]), &counts(0));
    check_summary(batch(&folder, &["."]), &counts(1));
    let (numbers, placement) = FILLED_ANSWER.split_once('\n').expect("two parts");
    let six = numbers.strip_suffix(",2").expect("two filled steps");
    for output in [
        "refused,1,1\n",
        &format!("{six}\n{placement}"),
        &format!("{six},3\n{placement}"),
    ] {
        fs::write(folder.join("a.out"), output).expect("a test may write");
        check_summary(batch(&folder, &["."]), &counts(0));
        assert_eq!(text(folder.join("a.out")), FILLED_ANSWER, "{output}");
    }
}
