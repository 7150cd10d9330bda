//! Programs built by gcc and run.

use std::env;
use std::fs;
use std::io::Write;
use std::path::{Path, PathBuf};
use std::process::{Command, Output, Stdio};

pub const STRICT: &[&str] = &["-std=c99", "-Wall", "-Wextra", "-pedantic", "-Werror"];

/// The repository's root.
pub fn root() -> PathBuf {
    Path::new(env!("CARGO_MANIFEST_DIR")).join("..")
}

/// The archive that this test was linked with.
pub fn archive() -> PathBuf {
    let folder = env::var_os("REFINER_LIB_DIR").map(PathBuf::from);
    let folder = folder.unwrap_or_else(|| root().join("crates/refiner/out"));
    folder.join("librefiner.a")
}

/// An empty folder for one test, in the one that cargo keeps for tests.
pub fn folder(test: &str) -> PathBuf {
    let folder = Path::new(env!("CARGO_TARGET_TMPDIR")).join("c").join(test);
    if folder.exists() {
        fs::remove_dir_all(&folder).expect("a test may empty its folder");
    }
    fs::create_dir_all(&folder).expect("a test may make its folder");
    folder
}

/// A program of `tests/c`.
pub fn source(name: &str) -> PathBuf {
    Path::new(env!("CARGO_MANIFEST_DIR"))
        .join("tests/c")
        .join(name)
}

/// Builds a C program with the header and the archive of the repository.
pub fn build(source: &Path, program: &Path, flags: &[&str]) {
    let mut gcc = Command::new("gcc");
    gcc.args(STRICT).args(flags).arg("-I");
    gcc.arg(root().join("importer/include"));
    gcc.args([source, &archive()]).arg("-o").arg(program);
    said(&mut gcc);
}

/// What a command says on standard output; it must succeed without a word on standard error.
pub fn said(command: &mut Command) -> String {
    let output = command.stdin(Stdio::null()).output();
    let output = output.unwrap_or_else(|error| panic!("{command:?}: {error}"));
    let notes = String::from_utf8_lossy(&output.stderr);
    let well = output.status.success() && notes.is_empty();
    let said = String::from_utf8_lossy(&output.stdout).into_owned();
    assert!(well, "{command:?}: {}\n{said}{notes}", output.status);
    said
}

/// Runs a program on a text as standard input.
pub fn run(program: &Path, input: &[u8]) -> Output {
    let mut command = Command::new(program);
    command.stdin(Stdio::piped()).stdout(Stdio::piped());
    let mut child = command.spawn().expect("the program starts");
    let mut stdin = child.stdin.take().expect("standard input is a pipe");
    stdin.write_all(input).expect("the program reads its input");
    drop(stdin);
    child.wait_with_output().expect("the program ends")
}

/// Whether a command is there and succeeds; says so if a test goes on without it.
pub fn is_there(command: &mut Command) -> bool {
    let output = command.stdin(Stdio::null()).output();
    let there = output.is_ok_and(|output| output.status.success());
    if !there {
        eprintln!("left out, because this does not work here: {command:?}");
    }
    there
}
