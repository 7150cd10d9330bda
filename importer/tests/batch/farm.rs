//! `farm/`: a folder's jobs by chunks have the answers of one run, and each is done once.

use super::{batch, check_summary, counts, folder, jobs, names, put, summary, text, Said};
use super::{DESK, PAST, REFINE, TIGHT, WORKED};
use std::fs;
use std::os::unix::fs::PermissionsExt;
use std::path::{Path, PathBuf};
use std::process::{Child, Command, Stdio};
use std::thread;
use std::time::Duration;

/// How long a script may run.
const SECONDS: &str = "20";

/// A script of the farm, to be run on a folder. One that hangs is to fail its test.
fn script(name: &str, folder: &Path) -> Command {
    let farm = Path::new(env!("CARGO_MANIFEST_DIR")).join("../farm");
    let mut command = Command::new("timeout");
    command
        .arg(SECONDS)
        .arg(farm.join(name))
        .arg(folder)
        .env("REFINE", REFINE)
        .env_remove("SLURM_ARRAY_TASK_ID")
        .env_remove("SLURM_CPUS_PER_TASK")
        .stdin(Stdio::null());
    command
}

fn said(command: &mut Command) -> Said {
    let output = command.output().expect("the script starts");
    let text = |bytes: Vec<u8>| String::from_utf8_lossy(&bytes).into_owned();
    (
        text(output.stdout),
        text(output.stderr),
        output.status.code(),
    )
}

/// Runs a script that is to succeed without a word on standard error; what it prints.
fn done(command: &mut Command) -> String {
    let (output, notes, status) = said(command);
    assert_eq!((&*notes, status), ("", Some(0)), "{command:?}: {output}");
    output
}

fn split(folder: &Path, size: usize) -> String {
    done(script("split", folder).arg(size.to_string()))
}

fn task(folder: &Path, chunk: usize) -> Command {
    let mut command = script("task", folder);
    command.arg(chunk.to_string());
    command
}

fn left(folder: &Path) -> String {
    done(&mut script("left", folder))
}

fn summary_of(folder: &Path, chunk: usize) -> String {
    counts(&text(folder.join(format!("chunks/{chunk:04}.summary"))))
}

fn compared(one: &Path, other: &Path) -> (String, Option<i32>) {
    let (output, _, status) = said(script("compare", one).arg(other));
    (output, status)
}

/// A program of the test's own in a folder to stand first on the path.
fn put_program(folder: &Path, name: &str, text: &str) -> String {
    put(folder, name, text);
    let runs = fs::Permissions::from_mode(0o755);
    fs::set_permissions(folder.join(name), runs).expect("a test may set them");
    let path = std::env::var("PATH").expect("a path");
    format!("{}:{path}", folder.display())
}

/// The jobs done by one run.
fn one_run(test: &str) -> PathBuf {
    let one = jobs(test);
    check_summary(batch(&one, &["."]), &summary(0));
    one
}

#[test]
fn chunks_have_the_answers_of_one_run() {
    let (one, farm) = (one_run("farm_one"), jobs("farm's chunks"));
    assert_eq!(split(&farm, 2), "jobs,5\nchunks,3\n");
    assert_eq!(left(&farm), "1\n2\n3\n");
    let lists = ["0001.list", "0002.list", "0003.list"];
    assert_eq!(names(&farm.join("chunks")), lists);
    let lists = lists.map(|list| text(farm.join("chunks").join(list)));
    let jobs = ["desk.job\nfalling.job\n", "past.job\ntight.job\n"];
    assert_eq!(lists, [jobs[0], jobs[1], "worked.job\n"]);
    for chunk in [3, 1] {
        assert_eq!(done(&mut task(&farm, chunk)), "");
    }
    assert_eq!(left(&farm), "2\n");
    let answers = "same,3\ndiffer,2\n".to_string();
    assert_eq!(compared(&one, &farm), (answers, Some(1)));
    done(script("task", &farm).env("SLURM_ARRAY_TASK_ID", "2"));
    assert_eq!(left(&farm), "");
    let answers = "same,5\ndiffer,0\n".to_string();
    assert_eq!(compared(&one, &farm), (answers, Some(0)));
    let counts = "jobs,2 answered,1 refused,4,1 failed,0 taken over,0 placements,1,0,0 saved,288";
    assert_eq!(summary_of(&farm, 1), counts);
}

#[test]
fn answers_that_differ_are_told() {
    let (one, other) = (one_run("farm_differ_one"), one_run("farm_differ_other"));
    assert_eq!(compared(&one, &other).1, Some(0));
    put(&other, "worked.out", "100,0,0,1,0,0\n2,0,1\n6,0,1\n");
    let (output, notes, status) = said(script("compare", &one).arg(&other));
    assert_eq!((&*output, status), ("same,4\ndiffer,1\n", Some(1)));
    assert!(notes.contains("worked "), "{notes}");
    // A job that only one of them has.
    put(&one, "more.job", PAST);
    let answers = "same,4\ndiffer,2\n".to_string();
    assert_eq!(compared(&one, &other), (answers.clone(), Some(1)));
    assert_eq!(compared(&other, &one), (answers, Some(1)));
    let none = "same,0\ndiffer,0\n".to_string();
    let empty = folder("farm_differ_empty");
    assert_eq!(compared(&empty, &empty), (none, Some(1)));
}

/// A task of chunk 1 that goes on by itself; the number of its `refine` is in `pid`.
fn started(folder: &Path) -> Child {
    let note = "#!/bin/sh\necho $$ > pid\nexec \"$REAL\" \"$@\"\n";
    let path = put_program(folder, "note", note);
    let mut task = task(folder, 1);
    let task = task.env("PATH", path).env("REFINE", "note");
    let task = task.env("REAL", REFINE).stderr(Stdio::null());
    task.spawn().expect("a task starts")
}

/// A pipe that nobody writes to holds a task up in the middle: meanwhile no other task begins its
/// chunk, and once it is killed, the next one goes on where it was.
#[test]
fn a_task_that_is_killed_is_gone_on_with() {
    let folder = folder("farm_killed");
    for (name, job) in [("a", WORKED), ("b", TIGHT), ("d", DESK)] {
        put(&folder, format!("{name}.job"), job);
    }
    let pipe = folder.join("c.job");
    let made = Command::new("mkfifo").arg(&pipe).status();
    assert!(made.expect("mkfifo runs").success());
    split(&folder, 100);
    let mut held = started(&folder);
    let waited = (0..1000).find(|_| {
        thread::sleep(Duration::from_millis(10));
        folder.join("b.out").exists()
    });
    let (_, notes, status) = said(&mut task(&folder, 1));
    let pid = text(folder.join("pid"));
    let killed = Command::new("kill").args(["-9", pid.trim()]).status();
    assert!(killed.expect("kill runs").success());
    let ended = held.wait().expect("the task ends");
    assert!(waited.is_some(), "b.out was not written");
    assert_eq!(ended.code(), Some(128 + 9));
    assert_eq!(notes, "farm/task: another task is at work on chunk 1\n");
    assert_eq!(status, Some(1));
    assert_eq!(left(&folder), "1\n");
    fs::remove_file(&pipe).expect("the pipe is there");
    put(&folder, "c.job", PAST);
    done(&mut task(&folder, 1));
    assert_eq!(left(&folder), "");
    let counts = "jobs,4 answered,3 refused,8,1 failed,0 taken over,2 placements,0,0,0 saved,0";
    assert_eq!(summary_of(&folder, 1), counts);
    let (_, notes, status) = said(&mut task(&folder, 1));
    assert_eq!(notes, "farm/task: chunk 1 is done\n");
    assert_eq!(status, Some(0));
    assert_eq!(summary_of(&folder, 1), counts);
}

#[test]
fn a_chunk_with_a_job_that_cannot_be_read_is_left() {
    let folder = jobs("farm_unread");
    split(&folder, 3);
    fs::remove_file(folder.join("past.job")).expect("it is there");
    let (_, notes, status) = said(&mut task(&folder, 1));
    assert!(notes.contains("cannot open past.job"), "{notes}");
    assert_eq!(status, Some(2));
    assert!(folder.join("desk.out").exists());
    assert_eq!(left(&folder), "1\n2\n");
}

/// A program in the place of sbatch prints the words that it is given.
#[test]
fn only_chunks_that_are_left_are_submitted() {
    let folder = jobs("farm_submitted");
    split(&folder, 1);
    let path = put_program(&folder, "sbatch", "#!/bin/sh\nprintf '%s\\n' \"$@\"\n");
    for chunk in [1, 4] {
        done(&mut task(&folder, chunk));
    }
    let mut submit = script("submit", &folder);
    submit.env("PATH", &path).arg("--cpus-per-task=2");
    let words = done(&mut submit);
    let words: Vec<&str> = words.lines().collect();
    assert!(words.contains(&"--array=2,3,5"), "{words:?}");
    assert!(words.contains(&"--cpus-per-task=2"), "{words:?}");
    let last = words.last().expect("words");
    assert_eq!(Path::new(last), folder.canonicalize().expect("it is there"));
    for chunk in [2, 3, 5] {
        done(&mut task(&folder, chunk));
    }
    let (words, notes, status) = said(script("submit", &folder).env("PATH", &path));
    assert_eq!((&*words, status), ("", Some(0)));
    assert_eq!(notes, "farm/submit: all chunks are done\n");
}

#[test]
fn parallel_does_the_chunks_that_are_left() {
    let there = Command::new("parallel").arg("--version").output();
    if !there.is_ok_and(|output| output.status.success()) {
        eprintln!("left out, because this is not installed: parallel");
        return;
    }
    let (one, farm) = (one_run("farm_parallel_one"), jobs("farm's parallel"));
    split(&farm, 2);
    done(&mut task(&farm, 2));
    let before = fs::metadata(farm.join("chunks/0002.summary")).expect("it is done");
    done(&mut script("parallel", &farm));
    assert_eq!(left(&farm), "");
    let after = fs::metadata(farm.join("chunks/0002.summary")).expect("it is done");
    let times = [before, after].map(|found| found.modified().expect("it has a time"));
    assert_eq!(times[0], times[1]);
    let answers = "same,5\ndiffer,0\n".to_string();
    assert_eq!(compared(&one, &farm), (answers, Some(0)));
}

#[test]
fn wrong_words_are_told() {
    let folder = jobs("farm_usage");
    let status = |name: &str, words: &[&str]| said(script(name, &folder).args(words)).2;
    for words in [&["0"][..], &["x"], &["-1"], &[], &["1", "2"]] {
        assert_eq!(status("split", words), Some(2), "{words:?}");
    }
    for name in ["left", "submit"] {
        assert_eq!(status(name, &[]), Some(2), "{name}, without chunks");
    }
    split(&folder, 2);
    assert_eq!(status("split", &["2"]), Some(2), "chunks are there");
    for words in [&["0"][..], &["x"], &[], &["1", "2"], &["4"]] {
        assert_eq!(status("task", words), Some(2), "{words:?}");
    }
    assert_eq!(status("compare", &[]), Some(2));
    assert_eq!(status("compare", &["nowhere"]), Some(2));
    assert_eq!(status("make-load", &["--heavy"]), Some(2));
    let lists = ["0001.list", "0002.list", "0003.list"];
    assert_eq!(names(&folder.join("chunks")), lists);
}
