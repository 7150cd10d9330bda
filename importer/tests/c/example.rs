//! `examples/place.c` prints what `refine` prints.

use crate::building::{archive, build, folder, is_there, root, run, said};
use std::path::Path;
use std::process::Command;

const README: &str = include_str!("../../../README.md");
const WORKED: &[u8] = include_bytes!("../../../examples/worked.job");
const ANSWER: &str = "100,0,0,1,0,0\n2,0,1\n6,0,0\n";
/// Worked in `examples.rs`.
const REORDER: &[u8] = include_bytes!("../../../examples/reorder.job");
const REORDERED: &str = "9,0,9,0,0,25\n5,0,0\n0,0,0\n3,0,0\n7,0,0\n";
/// Worked in `examples.rs`, too.
const FILLED: &[u8] = include_bytes!("../../../examples/filled.job");
const FILLED_ANSWER: &str = "162,3,2,0,0,67,2\n0,0,0\n6,0,0\n10,0,0\n";

/// Checks that a program built from the example answers and refuses as it should.
pub fn check(program: &Path) {
    let jobs: [(&[u8], &str, i32); 8] = [
        (WORKED, ANSWER, 0),
        (REORDER, REORDERED, 0),
        (FILLED, FILLED_ANSWER, 0),
        (
            b"J,1,20,1,1,100,7,100,50\nC,0,17,1,1,4,3,3,2,2\n",
            "7,0,1,0,0,-100\n16,0,0\n",
            0,
        ),
        (b"J,1,20,1,1,100,1,100,50\nC\n", "refused,1,2\n", 1),
        (b"", "refused,1,1\n", 1),
        (b"K", "refused,1,1\n", 1),
        (b"K,1,20,1,1,1,1,1,1,1001\n", "refused,2,1\n", 1),
    ];
    for (job, answer, status) in jobs {
        let output = run(program, job);
        assert_eq!(String::from_utf8_lossy(&output.stdout), answer);
        assert_eq!(output.status.code(), Some(status));
    }
}

#[test]
fn as_strict_c() {
    let program = folder("example").join("place");
    build(&root().join("examples/place.c"), &program, &[]);
    check(&program);
    // An input longer than the program's first buffers.
    let output = run(&program, &WORKED.repeat(1000));
    assert_eq!(String::from_utf8_lossy(&output.stdout), "refused,1,4\n");
}

#[test]
fn as_cpp() {
    if !is_there(Command::new("g++").arg("--version")) {
        return;
    }
    let program = folder("example_cpp").join("place");
    let mut cpp = Command::new("g++");
    cpp.args(["-Wall", "-Wextra", "-pedantic", "-Werror", "-I"]);
    cpp.arg(root().join("importer/include"));
    cpp.args(["-x", "c++"]).arg(root().join("examples/place.c"));
    cpp.args(["-x", "none"]).arg(archive());
    said(cpp.arg("-o").arg(&program));
    check(&program);
}

#[test]
fn as_readme_says() {
    let line = README.lines().find(|line| line.starts_with("    gcc "));
    let line = line.expect("README has a gcc line").trim();
    let words: Vec<&str> = line.split_whitespace().collect();
    let program = folder("example_readme").join("place");
    let (output, arguments) = words[1..].split_last().expect("the line ends with a file");
    assert_eq!((*output, arguments.last()), ("target/place", Some(&"-o")));
    let mut gcc = Command::new(words[0]);
    let archive = archive();
    for word in arguments {
        match *word {
            "crates/refiner/out/librefiner.a" => gcc.arg(&archive),
            _ => gcc.arg(word),
        };
    }
    said(gcc.current_dir(root()).arg(&program));
    check(&program);
}
