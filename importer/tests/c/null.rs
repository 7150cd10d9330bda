//! NULL with length 0 is taken by every function, for each of its arguments.

use crate::building::{build, folder, is_there, said, source};
use std::process::Command;

/// Arguments may be empty in 4 + 8 + 8 + 16 + 16 + 4 + 16 ways; each with four jobs and three
/// placements.
const CALLS: &str = "864\n";

const CHECKED: &[&str] = &["-fsanitize=address,undefined", "-fno-sanitize-recover=all"];

#[test]
fn null_is_as_good_as_an_address() {
    let program = folder("null").join("null");
    build(&source("null.c"), &program, &[]);
    assert_eq!(said(&mut Command::new(&program)), CALLS);
}

#[test]
fn also_in_a_program_that_checks_itself() {
    let program = folder("null_checked").join("null");
    let empty = program.with_file_name("empty");
    let script = "echo 'int main(void) { return 0; }' | gcc \"$@\" -x c - -o \"$0\" && \"$0\"";
    let mut probe = Command::new("sh");
    probe.args(["-c", script]).arg(empty).args(CHECKED);
    if is_there(&mut probe) {
        build(&source("null.c"), &program, CHECKED);
        assert_eq!(said(&mut Command::new(&program)), CALLS);
    }
}
