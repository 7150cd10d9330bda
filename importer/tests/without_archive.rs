//! Only linking needs the archive: without it the package is checked and documented, and a build
//! says what to run.

use std::env;
use std::fs;
use std::path::Path;
use std::process::{Command, Output};

/// What names the way to the archive, wherever it is missing.
const ADVICE: [&str; 3] = [
    "librefiner.a is missing, so nothing can be linked",
    "Run `rt lib` in the folder crates/refiner",
    "set REFINER_LIB_DIR to its folder",
];

/// Runs cargo on this package with a folder of archives that has none.
fn cargo(arguments: &[&str]) -> Output {
    let folder = Path::new(env!("CARGO_TARGET_TMPDIR")).join("without_archive");
    let archives = folder.join("archives");
    fs::create_dir_all(&archives).expect("a test may make its folder");
    let mut cargo = Command::new(env!("CARGO"));
    cargo.args(arguments).arg("--offline");
    cargo.current_dir(env!("CARGO_MANIFEST_DIR"));
    cargo.env("CARGO_TARGET_DIR", folder.join("target"));
    cargo.env("REFINER_LIB_DIR", archives);
    cargo.env("RUSTDOCFLAGS", "-D warnings");
    cargo.output().expect("cargo ends")
}

/// What cargo said on standard error, which must have the advice.
fn notes(output: &Output) -> String {
    let notes = String::from_utf8_lossy(&output.stderr).into_owned();
    for advice in ADVICE {
        assert!(notes.contains(advice), "{advice:?} is not in\n{notes}");
    }
    notes
}

#[test]
fn the_package_is_checked_and_documented_but_not_linked() {
    for arguments in [&["check"][..], &["doc", "--no-deps"]] {
        let output = cargo(arguments);
        let notes = notes(&output);
        assert!(output.status.success(), "{arguments:?}\n{notes}");
    }
    let output = cargo(&["build", "--bin", "refine"]);
    let notes = notes(&output);
    let found = notes.contains("could not find native static library `refiner`");
    assert!(!output.status.success() && found, "{notes}");
}
