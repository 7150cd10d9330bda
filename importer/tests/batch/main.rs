//! `refine batch`: many jobs in one process.

mod answers;
mod browser;
mod csv;
#[cfg(unix)]
mod farm;
mod list;
mod load;
mod page;
mod readme;
mod resume;
mod trouble;

use std::ffi::OsStr;
use std::fs::{self, File};
use std::io::Write;
use std::path::{Path, PathBuf};
use std::process::{Command, Stdio};
use std::time::{Duration, SystemTime};

/// Standard output, standard error and exit status.
type Said = (String, String, Option<i32>);

const REFINE: &str = env!("CARGO_BIN_EXE_refine");

/// Jobs worked by hand, and what `refine` prints of them. The second one's cell reaches past the
/// row by one site; in the third, two cells of three sites stand in a row of five.
const WORKED: &str = include_str!("../../../examples/worked.job");
const WORKED_ANSWER: &str = "100,0,0,1,0,0\n2,0,1\n6,0,0\n";
const PAST: &str = "J,1,20,1,1,100,7,100,50\nC,0,17,1,1,4,3,3,2,2\n";
const PAST_ANSWER: &str = "7,0,1,0,0,-100\n16,0,0\n";
const TIGHT: &str = "J,1,5,7,1,1,1,1,1\nC,0,0,0,1,3,1,1,1,1\nC,0,0,0,1,3,1,1,1,1\n";
const FALLING: &str = "J,1,20,1,1,100,1,100,50\nC,0,2,1,1,4,3,3,2,2\nC,0,1,0,1,4,3,3,2,2\n";

/// A job with R 2, worked in `examples.rs`.
const REORDER: &str = include_str!("../../../examples/reorder.job");
const REORDER_ANSWER: &str = "9,0,9,0,0,25\n5,0,0\n0,0,0\n3,0,0\n7,0,0\n";

/// A job led by `K`, worked in `examples.rs`, and its given rows, which cost 230.
const FILLED: &str = include_str!("../../../examples/filled.job");
const FILLED_ANSWER: &str = "162,3,2,0,0,67,2\n0,0,0\n6,0,0\n10,0,0\n";
const FILLED_GIVEN: &str = "0,0,0\n4,0,0\n10,0,0\n";

/// A job with a supplier's placement: 300 beside 12, the cheapest.
const DESK: &str = include_str!("../../../examples/desk.job");
const DESK_PLACEMENT: &str = include_str!("../../../examples/desk.placement");

/// A folder of a test's own, empty at first.
fn folder(test: &str) -> PathBuf {
    let path = Path::new(env!("CARGO_TARGET_TMPDIR"))
        .join("batch")
        .join(test);
    // Of an earlier run there may be one.
    let _ = fs::remove_dir_all(&path);
    fs::create_dir_all(&path).expect("a test may make its folder");
    path
}

/// Writes a file as if it had stood there for a minute.
fn put(folder: &Path, name: impl AsRef<OsStr>, text: &str) {
    let path = folder.join(name.as_ref());
    fs::write(&path, text).expect("a test may write its files");
    touch(&path, -60);
}

/// Sets when a file was changed, in seconds from now.
fn touch(path: &Path, seconds: i64) {
    let span = Duration::from_secs(seconds.unsigned_abs());
    let now = SystemTime::now();
    let time = if seconds < 0 { now - span } else { now + span };
    let file = File::options().append(true).open(path);
    let file = file.expect("the file is there");
    file.set_modified(time).expect("a test may set times");
}

/// The jobs above in a folder.
fn jobs(test: &str) -> PathBuf {
    let folder = folder(test);
    put(&folder, "worked.job", WORKED);
    put(&folder, "past.job", PAST);
    put(&folder, "tight.job", TIGHT);
    put(&folder, "falling.job", FALLING);
    put(&folder, "desk.job", DESK);
    put(&folder, "desk.placement", DESK_PLACEMENT);
    folder
}

fn text(path: impl AsRef<Path>) -> String {
    let path = path.as_ref();
    fs::read_to_string(path).unwrap_or_else(|error| panic!("{}: {error}", path.display()))
}

/// The names of the files in a folder, in order.
fn names(folder: &Path) -> Vec<String> {
    let entries = fs::read_dir(folder).expect("the folder is there");
    let name = |entry: fs::DirEntry| entry.file_name().to_string_lossy().into_owned();
    let mut names: Vec<String> = entries
        .map(|entry| name(entry.expect("an entry")))
        .collect();
    names.sort();
    names
}

/// Runs `refine batch` in a folder, with a list as standard input.
fn batch_of(folder: &Path, words: &[&str], list: &[u8]) -> Said {
    let mut child = Command::new(REFINE)
        .arg("batch")
        .args(words)
        .current_dir(folder)
        .stdin(Stdio::piped())
        .stdout(Stdio::piped())
        .stderr(Stdio::piped())
        .spawn()
        .expect("refine starts");
    let mut stdin = child.stdin.take().expect("standard input is a pipe");
    // A run that does not read its input may close it first.
    let _ = stdin.write_all(list);
    drop(stdin);
    let output = child.wait_with_output().expect("refine ends");
    let text = |bytes: &[u8]| String::from_utf8_lossy(bytes).into_owned();
    (
        text(&output.stdout),
        text(&output.stderr),
        output.status.code(),
    )
}

fn batch(folder: &Path, words: &[&str]) -> Said {
    batch_of(folder, words, b"")
}

/// The summary's lines but for those of time, joined by a space.
fn counts(summary: &str) -> String {
    let timed = |line: &&str| line.starts_with("seconds,") || line.starts_with("jobs a second,");
    let (timed, counts): (Vec<&str>, Vec<&str>) = summary.lines().partition(timed);
    assert_eq!(timed.len(), 2, "{summary}");
    counts.join(" ")
}

/// Checks that a run says nothing but a summary with these counts, and ends with status 0.
fn check_summary((output, notes, status): Said, expected: &str) {
    assert_eq!((&*notes, status), ("", Some(0)), "{output}");
    assert_eq!(counts(&output), expected);
}

/// The summary of the jobs above, of which so many are taken over.
fn summary(taken_over: usize) -> String {
    let counts = "jobs,5 answered,3 refused,4,1 refused,8,1 failed,0";
    format!("{counts} taken over,{taken_over} placements,1,0,0 saved,288")
}
