//! Odd surroundings: streams that are closed, full or of the wrong kind, no memory, a terminal.
//! No answer is lost with status 0, and nothing that cannot be read counts as an empty job.

use crate::told;
use std::io;
use std::process::Command;

const JOB: &str = concat!(env!("CARGO_MANIFEST_DIR"), "/../examples/worked.job");
const BY_TWO: &str = concat!(env!("CARGO_MANIFEST_DIR"), "/../examples/reorder.job");

const REFINE: &str = env!("CARGO_BIN_EXE_refine");

/// Standard output, standard error and exit status.
type Said = (String, String, Option<i32>);

/// Runs a line of the shell in which `refine` is the program, `$JOB` the worked example and
/// `$BY_TWO` a job with R 2.
fn shell(line: &str) -> Said {
    let start = "refine() { \"$REFINE\" \"$@\"; }\n".to_string();
    let mut bash = Command::new("bash");
    bash.args(["-c", &(start + line)]);
    bash.env("REFINE", REFINE).env("JOB", JOB);
    bash.env("BY_TWO", BY_TWO);
    bash.env("FOLDER", env!("CARGO_TARGET_TMPDIR"));
    told(&bash.output().expect("bash ends"))
}

/// Checks that a line ends with status 2, one message and nothing on standard output.
fn check_error(line: &str, message: &str) {
    let (output, notes, status) = shell(line);
    assert_eq!((&*output, status), ("", Some(2)), "{line}: {notes}");
    assert!(notes.starts_with(&format!("refine: {message}")), "{notes}");
    assert_eq!(notes.lines().count(), 1, "{line}: {notes}");
}

const COMMANDS: [&str; 9] = [
    "refine \"$JOB\" <&-",
    "refine < \"$JOB\"",
    "refine -p \"$JOB\"",
    "refine score \"$JOB\" <(refine -p \"$JOB\")",
    "refine reasons \"$JOB\" <(refine -p \"$JOB\")",
    "refine load 1 64",
    "refine help",
    "refine --version",
    "refine < /dev/null",
];

#[test]
fn an_output_that_cannot_be_written_is_an_error() {
    let cannot = "cannot write standard output: ";
    for command in COMMANDS {
        // What is refused has a reason before the message.
        let quiet = format!("{command} 2> /dev/null");
        for output in [">&-", "> /dev/full", "1< /dev/null"] {
            let (_, _, status) = shell(&format!("{quiet} {output}"));
            assert_eq!(status, Some(2), "{command} {output}");
        }
    }
    for command in &COMMANDS[..8] {
        check_error(&format!("{command} >&-"), &format!("{cannot}it is closed"));
        check_error(
            &format!("{command} > /dev/full"),
            &format!("{cannot}No space"),
        );
        check_error(&format!("{command} 1< /dev/null"), &format!("{cannot}Bad"));
    }
}

#[test]
fn an_input_that_cannot_be_read_is_an_error() {
    let cannot = "cannot read standard input: ";
    for command in ["refine", "refine -p -", "refine score \"$JOB\" -"] {
        check_error(&format!("{command} <&-"), &format!("{cannot}it is closed"));
        check_error(&format!("{command} < /tmp"), &format!("{cannot}Is a dir"));
        let only_written = format!("{command} 0> \"$FOLDER/only_written\"");
        check_error(&only_written, &format!("{cannot}Bad file"));
    }
    check_error("refine /tmp", "cannot read /tmp: Is a directory");
}

#[test]
fn what_is_given_on_purpose_is_no_error() {
    let empty = ("refused,1,1\n".to_string(), Some(1));
    for input in ["< /dev/null", "<> /dev/null", "< <(true)"] {
        let (output, _, status) = shell(&format!("refine {input}"));
        assert_eq!((output, status), empty, "{input}");
    }
    for output in ["> /dev/null", "1<> /dev/null"] {
        let said = shell(&format!("refine \"$JOB\" {output}"));
        assert_eq!(said, (String::new(), String::new(), Some(0)), "{output}");
    }
}

#[test]
fn a_stream_that_is_not_needed_may_be_closed() {
    let answer = "100,0,0,1,0,0\n2,0,1\n6,0,0\n";
    for streams in ["<&-", "2>&-", "2> /dev/full", "<&- 2>&-"] {
        let said = shell(&format!("refine \"$JOB\" {streams}"));
        assert_eq!(said, (answer.into(), String::new(), Some(0)), "{streams}");
    }
    // The reasons are lost, the answer and its status are not.
    for streams in ["2>&-", "2> /dev/full"] {
        let said = shell(&format!("refine {streams} < /dev/null"));
        assert_eq!(said, ("refused,1,1\n".into(), String::new(), Some(1)));
    }
}

#[test]
fn a_reader_that_has_gone_away_is_no_word() {
    let (reader, writer) = io::pipe().expect("a pipe");
    drop(reader);
    let mut refine = Command::new(REFINE);
    let output = refine.arg(JOB).stdout(writer).output();
    let said = told(&output.expect("refine ends"));
    assert_eq!(said, (String::new(), String::new(), Some(2)));
    let (output, notes, status) = shell("refine \"$JOB\" | head -n 0; exit ${PIPESTATUS[0]}");
    assert_eq!((&*output, &*notes), ("", ""));
    // It may have gone before the answer or after it.
    assert!(matches!(status, Some(0 | 2)), "{status:?}");
}

/// From some limit on the program starts, and then it either has no memory for the store, or for the
/// stack that Place takes, and says so, or answers. Where the limit is below what starting takes,
/// nothing can be said.
#[test]
fn no_memory_for_the_store_is_an_error() {
    let answer = "100,0,0,1,0,0\n2,0,1\n6,0,0\n";
    check_memory("$JOB", (2_500..12_000).step_by(250), 4_194_304, answer);
}

/// A job with R 2 needs four times the store, and is told that there is none where others are
/// answered.
#[test]
fn no_memory_for_a_larger_store_is_an_error() {
    let answer = "9,0,9,0,0,25\n5,0,0\n0,0,0\n3,0,0\n7,0,0\n";
    check_memory("$BY_TWO", (2_500..26_500).step_by(500), 16_777_216, answer);
    let (_, _, status) = limited("$JOB", 16_000);
    assert_eq!(status, Some(0));
    let (_, notes, status) = limited("$BY_TWO", 16_000);
    let note = "refine: no memory for the store: 16777216 bytes\n";
    assert_eq!((&*notes, status), (note, Some(2)));
}

/// Runs the program on a job with so many KiB of memory.
fn limited(job: &str, limit: u32) -> Said {
    // After the limit the shell does nothing but become the program.
    shell(&format!("ulimit -v {limit}; exec \"$REFINE\" \"{job}\""))
}

/// Checks what is said of a job that needs a store of so many bytes, with ever more memory.
fn check_memory(job: &str, limits: impl Iterator<Item = u32>, store: usize, answer: &str) {
    let starts = |said: &Said| said.2 == Some(0) || said.1.starts_with("refine: ");
    let runs = limits.map(|limit| limited(job, limit));
    let runs: Vec<Said> = runs.skip_while(|said| !starts(said)).collect();
    let note = |what: &str| format!("refine: no memory for the {what} bytes\n");
    let error = |what: &str| (String::new(), note(what), Some(2));
    let errors = [error(&format!("store: {store}")), error("stack: 524288")];
    let answer = (answer.into(), String::new(), Some(0));
    for said in &runs {
        assert!(errors.contains(said) || *said == answer, "{said:?}");
    }
    assert!(runs.contains(&errors[0]) && runs.contains(&answer));
}

#[test]
fn no_memory_for_the_text_is_an_error() {
    let line = "ulimit -v 20000; head -c 30000000 /dev/zero | refine";
    check_error(line, "cannot read standard input: ");
}

/// `script` runs a command on a terminal of its own.
#[test]
fn a_terminal_is_told_what_is_waited_for() {
    let has = |line: &str| shell(line).2 == Some(0);
    if !has("script -qec true /dev/null < /dev/null") {
        eprintln!("left out, because this does not work here: script");
        return;
    }
    let on_terminal = |words: &str| {
        let line = format!("script -qec '\"$REFINE\" {words}' /dev/null < /dev/null");
        shell(&line).0
    };
    let hint = |what| format!("refine: type {what} line by line; end it with Ctrl-D");
    assert!(on_terminal("").contains(&hint("a job")));
    assert!(on_terminal("-p -").contains(&hint("a job")));
    assert!(on_terminal("score \"$JOB\" -").contains(&hint("a placement")));
    assert!(!on_terminal("\"$JOB\"").contains("Ctrl-D"));
    assert!(!on_terminal("help").contains("Ctrl-D"));
}
