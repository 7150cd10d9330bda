//! `tools/build` shows how far the proofs are, and goes on to `refine` only if they are done.

#![cfg(unix)]

use std::collections::BTreeMap;
use std::env;
use std::ffi::OsString;
use std::fs;
use std::io::Write;
use std::os::unix::fs::PermissionsExt;
use std::path::{Path, PathBuf};
use std::process::{self, Command, Output, Stdio};

const CRATES: &str = include_str!("../../crates.txt");

/// What `rt lib` said of each crate, and how it ended, cut to a few crates: one with code, one without,
/// one with a note, one that was proved before, and the archive.
const SAID: &str = "\
rt: chose --jobs 2 for definition
note: no function with a body is declared, so nothing was lowered
logic /kit/logic/antt-project.json: libraries=16 files=2756 sum=dac8208d650f15bf
statements std: modules loaded=1 checked=0
crate definition: modules loaded=0 checked=23
logic=proved functions=0 sum=dac8208d650f15bf native=nat,char,string logic-built=trusted
rt: definition proved (1 s)
rt: chose --jobs 2 for gap_charge
fn gap_charge::place: proved
struct gap_charge::Case: proved
library definition: modules loaded=7 checked=0
logic=proved functions=2 sum=dac8208d650f15bf native=nat,char,string logic-built=trusted
rt: gap_charge proved (12 s)
rt: job_read: begins with what a check kept in /other/crates/job_read
./proofs/cell_line/Answers.antt:30:5: note: large solution: `_` was filled in
rt: job_read proved (27 s)
rt: lists proved (unchanged since it was last proved)
fn refiner::refiner_place: proved
axioms libc: none reached of the 128 declared
logic=proved functions=5 target=x86_64-unknown-linux-gnu sum=dac8208d650f15bf
rt: crates/refiner/out/librefiner.a has the functions of refiner that are exported
";

/// What it says of a crate that is not proved.
const REFUSED: &str = "\
crates/job/proofs/offer_of/Proof.antt:38:23: error: `returns`: not proved
  the two sides differ
logic=not-proved functions=9
rt: job NOT PROVED (exit 1, 3 s)
";

/// What `rt lib` says of the last crate.
const LAST: &str = "\
fn refiner::refiner_place: proved
logic=proved functions=5 target=x86_64-unknown-linux-gnu sum=dac8208d650f15bf
";

/// The crates that are `refiner` and below, by crates.txt.
fn needed() -> Vec<&'static str> {
    let entries = CRATES.lines().filter_map(|line| line.split_once(':'));
    let entries = entries.map(|(name, uses)| (name.trim_end_matches(" staticlib"), uses));
    let uses: BTreeMap<&str, &str> = entries.collect();
    let mut found = vec!["refiner"];
    let mut at = 0;
    while at < found.len() {
        for name in uses[found[at]].split_whitespace() {
            if uses.contains_key(name) && !found.contains(&name) {
                found.push(name);
            }
        }
        at += 1;
    }
    found
}

/// How many these are.
fn whole() -> usize {
    needed().len()
}

fn build() -> Command {
    let root = Path::new(env!("CARGO_MANIFEST_DIR")).join("..");
    Command::new(root.join("tools/build"))
}

/// What `tools/build --progress` prints of what rt said.
fn progress(said: &str) -> String {
    let mut command = build();
    command
        .arg("--progress")
        .stdin(Stdio::piped())
        .stdout(Stdio::piped());
    let mut child = command.spawn().expect("tools/build starts");
    let mut stdin = child.stdin.take().expect("standard input is a pipe");
    stdin
        .write_all(said.as_bytes())
        .expect("it reads its input");
    drop(stdin);
    let output = child.wait_with_output().expect("tools/build ends");
    assert!(output.status.success());
    String::from_utf8(output.stdout).expect("it prints a text")
}

#[test]
fn each_crate_is_counted_and_the_archive_is_the_last() {
    let told = ["definition (1 s)", "gap_charge (12 s)", "job_read (27 s)"];
    let before = "lists (unchanged since it was last proved)";
    let lines = told.iter().chain([&before, &"refiner"]).zip(1..);
    let whole = whole();
    let line = |(name, at): (&&str, u32)| format!("{at} of {whole} proved: {name}\n");
    assert_eq!(progress(SAID), lines.map(line).collect::<String>());
    assert_eq!(progress(""), "");
}

#[test]
fn what_is_not_proved_is_shown_as_it_is() {
    let first = format!("1 of {} proved: lists (0 s)\n", whole());
    let said = format!("rt: lists proved (0 s)\n{REFUSED}");
    assert_eq!(progress(&said), format!("{first}{REFUSED}"));
    assert_eq!(progress("rt: cannot go on"), "rt: cannot go on\n");
}

/// The folder of a test's tree, which goes when the test ends. It lies outside the repository, where
/// `rt ci` takes no second crates.txt.
struct Tree(PathBuf);

impl Drop for Tree {
    fn drop(&mut self) {
        let _ = fs::remove_dir_all(&self.0);
    }
}

/// A tree of its own with the build's tools, and commands that stand in for rt and cargo there: rt
/// leaves an archive in one crate, says a text there and ends with a status, and is silent in others.
fn tree(test: &str, crate_name: &str, (said, status): (&str, i32)) -> Tree {
    let name = format!("refiner-progress-{}-{test}", process::id());
    let made = Tree(env::temp_dir().join(name));
    let tree = &made.0;
    fs::create_dir_all(tree.join("tools")).expect("a test may make its folder");
    for name in needed() {
        let folder = tree.join("crates").join(name);
        fs::create_dir_all(folder).expect("a test may make its folder");
    }
    for name in ["crates.txt", "tools/build", "tools/kit"] {
        let file = Path::new(env!("CARGO_MANIFEST_DIR")).join("..").join(name);
        fs::copy(file, tree.join(name)).expect("a test may copy a file");
    }
    fs::write(tree.join("said"), said).expect("a test may write a file");
    let rt = format!(
        "[ $1 = version ] && {{ echo a kit; exit; }}\n\
         case $PWD in */crates/{crate_name}) ;; *) exit 0 ;; esac\n\
         mkdir -p out; echo bytes > out/librefiner.a\n\
         cat ../../said >&2; echo \"rt $*\"; exit {status}"
    );
    let cargo = "echo \"cargo $*, archive in ${REFINER_LIB_DIR-target}\"";
    for (name, body) in [("rt", &*rt), ("cargo", cargo)] {
        let path = tree.join(name);
        fs::write(&path, format!("#!/bin/sh\n{body}\n")).expect("a test may write a file");
        fs::set_permissions(&path, fs::Permissions::from_mode(0o755)).expect("its own file");
    }
    made
}

/// Runs the tree's `tools/build` with its stand-ins.
fn run(Tree(tree): &Tree) -> Output {
    let mut path = OsString::from(tree);
    path.push(":");
    path.push(env::var_os("PATH").unwrap_or_default());
    let mut command = Command::new(tree.join("tools/build"));
    command
        .env("PATH", path)
        .env("REFINER_LIB_DIR", "/elsewhere");
    command.output().expect("tools/build ends")
}

#[test]
fn once_all_is_proved_its_kit_is_recorded_and_refine_is_built_with_that_archive() {
    let tree = tree("proved", "refiner", (LAST, 0));
    let output = run(&tree);
    let told = String::from_utf8_lossy(&output.stdout);
    let whole = whole();
    let (before, last): (Vec<_>, Vec<_>) = told.lines().zip(1..).partition(|line| line.1 < whole);
    for (line, at) in before {
        let start = format!("{at} of {whole} proved: ");
        assert!(
            line.starts_with(&start) && line.ends_with(" (unchanged since it was last proved)")
        );
    }
    let last: Vec<&str> = last.iter().map(|line| line.0).collect();
    let counted = format!("{whole} of {whole} proved: refiner");
    let record = fs::read_to_string(tree.0.join("crates/refiner/out/librefiner.kit"));
    let record = record.expect("the kit is recorded");
    let (sum, kit) = record.split_once('\n').expect("the record has two lines");
    assert_eq!(kit, "a kit\n");
    let cargo = "cargo build --release --offline --manifest-path importer/Cargo.toml --bin refine";
    let cargo = format!("{cargo}, archive in target");
    assert_eq!(last, ["rt lib", &counted, sum, "a kit", &cargo]);
    assert!(output.status.success() && output.stderr.is_empty());
}

#[test]
fn where_something_is_not_proved_the_build_stops() {
    let output = run(&tree("refused", "definition", (REFUSED, 3)));
    let told = String::from_utf8_lossy(&output.stdout);
    let ended = told.strip_prefix(&format!("{REFUSED}rt lib\n"));
    let ended = ended.expect("what rt says is shown as it is");
    assert!(ended.starts_with("rt: definition NOT PROVED (exit 3, "));
    assert_eq!(ended.lines().count(), 1);
    assert_eq!(output.status.code(), Some(3));
}

#[test]
fn other_words_are_a_usage_error() {
    let output = build().arg("refiner").output().expect("tools/build ends");
    assert_eq!(output.status.code(), Some(2));
    let told = String::from_utf8_lossy(&output.stderr);
    assert_eq!(told, "usage: tools/build [--progress]\n");
}
