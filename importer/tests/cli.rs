//! `refine` as a program: what it prints, where, and its exit status.

#[path = "cli/filled.rs"]
mod filled;
#[path = "cli/load.rs"]
mod load;
#[path = "cli/manual.rs"]
mod manual;
#[path = "cli/reasons.rs"]
mod reasons;
#[path = "cli/surroundings.rs"]
mod surroundings;
#[path = "cli/version.rs"]
mod version;
#[path = "cli/words.rs"]
mod words;

use std::fs;
use std::io::Write;
use std::process::{Command, Output, Stdio};

const WORKED: &str = include_str!("../../examples/worked.job");

/// Runs `refine` on a text as standard input.
fn refine(arguments: &[&str], input: &[u8]) -> Output {
    let mut child = Command::new(env!("CARGO_BIN_EXE_refine"))
        .args(arguments)
        .stdin(Stdio::piped())
        .stdout(Stdio::piped())
        .stderr(Stdio::piped())
        .spawn()
        .expect("refine starts");
    let mut stdin = child.stdin.take().expect("standard input is a pipe");
    // A run that does not read its input may close it first.
    let _ = stdin.write_all(input);
    drop(stdin);
    child.wait_with_output().expect("refine ends")
}

/// Standard output, standard error and exit status.
fn told(output: &Output) -> (String, String, Option<i32>) {
    let text = |bytes: &[u8]| String::from_utf8_lossy(bytes).into_owned();
    (
        text(&output.stdout),
        text(&output.stderr),
        output.status.code(),
    )
}

#[test]
fn the_worked_example() {
    let (output, notes, status) = told(&refine(&[], WORKED.as_bytes()));
    assert_eq!(output, "100,0,0,1,0,0\n2,0,1\n6,0,0\n");
    assert_eq!((&*notes, status), ("", Some(0)));
}

#[test]
fn a_job_without_cells_has_an_empty_placement() {
    let (output, _, status) = told(&refine(&[], b"J,2,9,7,1,1000,1000,1000,1000\n"));
    assert_eq!((&*output, status), ("0,0,0,0,0,0\n", Some(0)));
}

#[test]
fn a_negative_drift_is_printed_with_its_sign() {
    // The cell reaches past the row by one site.
    let job = b"J,1,20,1,1,100,7,100,50\nC,0,17,1,1,4,3,3,2,2\n";
    let (output, _, status) = told(&refine(&[], job));
    assert_eq!((&*output, status), ("7,0,1,0,0,-100\n16,0,0\n", Some(0)));
}

/// Eight cells fill the row, and the last is given one site behind its place: drift is 12.5
/// hundredths to the left.
#[test]
fn drift_rounds_halves_to_even() {
    let cell = |given: u32| format!("C,0,{given},0,1,2,1,1,1,1\n");
    let cells: String = [0, 2, 4, 6, 8, 10, 12, 15].map(cell).concat();
    let job = format!("J,1,16,1,0,100,7,100,50\n{cells}");
    let placement = "0,0,0\n2,0,0\n4,0,0\n6,0,0\n8,0,0\n10,0,0\n12,0,0\n14,0,0\n";
    let (output, _, status) = told(&refine(&[], job.as_bytes()));
    let answer = format!("7,0,1,0,0,-12\n{placement}");
    assert_eq!((output, status), (answer, Some(0)));
    let said = score("half", &job, placement);
    assert_eq!(said.0, "legal,7,0,1,0,0,-12\n");
}

#[test]
fn a_job_without_a_legal_placement_is_refused_without_a_line() {
    let cell = "C,0,0,0,1,3,1,1,1,1\n";
    let job = format!("J,1,5,7,1,1,1,1,1\n{cell}{cell}");
    let (output, notes, status) = told(&refine(&[], job.as_bytes()));
    assert_eq!((&*output, status), ("refused,8,0\n", Some(1)));
    assert!(notes.starts_with("refine: refusal 8: no legal"), "{notes}");
}

#[test]
fn a_refused_job_gives_number_and_line_and_shows_the_line() {
    let job = WORKED.replace("C,0,6,0", "C,0,1,0");
    let (output, notes, status) = told(&refine(&[], job.as_bytes()));
    assert_eq!((&*output, status), ("refused,4,3\n", Some(1)));
    let words = "field 3 (given) is 1, below 2, the given site of cell 1 (line 2) in row 0";
    let start = format!("C,0,1,0,1,4,3,3,2,2\n<stdin>:3: {words}\nrefine: refusal 4 at line 3: ");
    assert!(notes.starts_with(&start), "{notes}");
}

/// Checks what standard error says of a refused job before the meaning of its number.
fn check_refused_job(job: impl AsRef<[u8]>, answer: &str, shown: &str) {
    let (output, notes, status) = told(&refine(&[], job.as_ref()));
    assert_eq!((&*output, status), (answer, Some(1)));
    let (first, rest) = notes.split_once("refine: refusal ").unwrap_or((&notes, ""));
    assert_eq!(first, shown);
    assert_eq!(rest.lines().count(), 1, "{notes}");
}

#[test]
fn a_refused_job_is_told_which_field_and_what_is_allowed() {
    let high = WORKED.replacen("2,2\n", "2,16\n", 1);
    let words = "<stdin>:2: field 10 (layout 0, right N) is 16; allowed 1 to 15";
    let shown = format!("C,0,2,1,1,4,3,3,2,16\n{words}\n");
    check_refused_job(high, "refused,2,2\n", &shown);
    let shown = "<stdin>:1: the job is empty\n";
    check_refused_job("", "refused,1,1\n", shown);
    let shown = "C,0,6,0,1,4,3,3,2,2\n<stdin>:3: the last line has no line feed\n";
    check_refused_job(WORKED.trim_end(), "refused,1,3\n", shown);
}

/// A terminal obeys control bytes, and a long line would fill it.
#[test]
fn a_line_is_shown_printable_and_cut() {
    let ends = "<stdin>:1: line ends with CR LF; lines end with LF alone";
    let shown = format!("J,1,20,1,1,100,1,100,50\\r\n{ends}\n");
    check_refused_job(WORKED.replace('\n', "\r\n"), "refused,1,1\n", &shown);
    let lead = "field 1 (lead) is \"\\x1b[2J\\xff\"; the first line begins with J or K";
    let shown = format!("\\x1b[2J\\xff\n<stdin>:1: {lead}\n");
    check_refused_job(b"\x1b[2J\xff\n", "refused,1,1\n", &shown);
    let (_, notes, _) = told(&refine(&[], &[b'9'; 100_000]));
    assert!(notes.contains(" ... 99800 more bytes\n"), "{notes}");
    assert!(notes.len() < 1_000, "{notes}");
}

#[test]
fn no_input_is_a_refusal() {
    let (output, _, status) = told(&refine(&[], b""));
    assert_eq!((&*output, status), ("refused,1,1\n", Some(1)));
}

#[test]
fn input_that_is_no_text_is_a_refusal() {
    let bytes: Vec<u8> = (0..=255).cycle().take(100_000).collect();
    let (output, _, status) = told(&refine(&[], &bytes));
    assert_eq!((&*output, status), ("refused,1,1\n", Some(1)));
}

/// A file for one test, in the folder that cargo keeps for tests.
fn file(name: &str, text: &str) -> String {
    let path = format!("{}/{name}", env!("CARGO_TARGET_TMPDIR"));
    fs::write(&path, text).expect("a test may write its files");
    path
}

/// Runs `refine score` on two texts.
fn score(test: &str, job: &str, placement: &str) -> (String, String, Option<i32>) {
    let job = file(&format!("{test}.job"), job);
    let placement = file(&format!("{test}.placement"), placement);
    told(&refine(&["score", &job, &placement], b""))
}

#[test]
fn a_legal_placement_gives_its_numbers() {
    let said = score("legal", WORKED, "2,0,1\n6,0,0\n");
    assert_eq!(
        said,
        ("legal,100,0,0,1,0,0\n".into(), String::new(), Some(0))
    );
}

#[test]
fn a_negative_drift_has_its_sign() {
    let job = WORKED.replace("C,0,2", "C,0,3").replace("C,0,6", "C,0,7");
    let said = score("drift", &job, "2,0,1\n6,0,0\n");
    assert_eq!(said.0, "legal,102,0,2,1,0,-100\n");
}

#[test]
fn a_broken_rule_is_named_with_its_cell() {
    let (output, notes, status) = score("broken", WORKED, "2,0,0\n7,0,0\n");
    assert_eq!((&*output, status), ("broken,5,1\n", Some(0)));
    let words = "one-site gap: cell 1, cell 2.\n";
    assert!(
        notes.ends_with(&format!("/broken.placement:1: {words}")),
        "{notes}"
    );
    assert_eq!(notes.lines().count(), 1, "{notes}");
}

/// The sentence is that of `refine reasons`, behind the placement's name and the line of its first
/// cell.
#[test]
fn a_broken_rule_is_told_in_the_refiners_sentence() {
    let job = file("sentence.job", WORKED);
    let placements = [
        ("2,0,0\n6,0,1\n", "broken,1,2\n"),
        ("2,0,0\n17,0,0\n", "broken,2,2\n"),
        ("4,0,0\n8,0,0\n", "broken,3,1\n"),
        ("3,0,0\n6,0,0\n", "broken,4,1\n"),
        ("1,0,1\n5,0,0\n", "broken,8,1\n"),
    ];
    for (placement, answer) in placements {
        let (sentence, ..) = told(&refine(&["reasons", &job, "-"], placement.as_bytes()));
        let said = told(&refine(&["score", &job, "-"], placement.as_bytes()));
        let cell = answer.trim_end().rsplit(',').next().unwrap_or_default();
        let notes = format!("<stdin>:{cell}: {sentence}");
        assert_eq!(said, (answer.into(), notes, Some(0)));
    }
}

#[test]
fn score_tells_of_the_file_that_has_the_line() {
    let (output, notes, status) = score("job_at_fault", "J,1\n", "2,0,0\n");
    assert_eq!((&*output, status), ("refused,1,1\n", Some(1)));
    assert!(notes.contains("/job_at_fault.job:1: 2 fields, "), "{notes}");
}

#[cfg(unix)]
#[test]
fn a_file_is_called_by_a_name_that_stays_in_its_line() {
    let (_, notes, _) = score("two\nlines", "J,1\n", "");
    assert!(notes.contains("/two\\nlines.job:1: 2 fields, "), "{notes}");
    assert_eq!(notes.lines().count(), 3, "{notes}");
}

#[test]
fn a_refused_placement_shows_its_line() {
    let (output, notes, status) = score("refused", WORKED, "2,0,0\n7,0\n");
    assert_eq!((&*output, status), ("refused,5,2\n", Some(1)));
    let words = "2 fields, a placement line has 3: site,layout,mirror\n";
    let told = format!("/refused.placement:2: {words}refine: refusal 5 at line 2");
    assert!(notes.starts_with("7,0\n"), "{notes}");
    assert!(notes.contains(&told), "{notes}");
}

#[test]
fn a_missing_line_shows_nothing_but_the_reason() {
    let (output, notes, status) = score("missing", WORKED, "2,0,0\n");
    assert_eq!((&*output, status), ("refused,5,2\n", Some(1)));
    let words = "the line is missing: the placement has 1 line, the job 2 cells\n";
    let told = format!("/missing.placement:2: {words}refine: refusal 5 at line 2");
    assert!(notes.contains(&told), "{notes}");
    assert_eq!(notes.lines().count(), 2, "{notes}");
}

#[test]
fn files_that_cannot_be_read_are_input_errors() {
    let job = file("unread.job", WORKED);
    for placement in ["no/such/file", env!("CARGO_TARGET_TMPDIR")] {
        let (output, notes, status) = told(&refine(&["score", &job, placement], b""));
        assert_eq!((&*output, status), ("", Some(2)));
        assert!(notes.starts_with("refine: cannot"), "{notes}");
        assert_eq!(notes.lines().count(), 1, "{notes}");
    }
}

#[cfg(unix)]
#[test]
fn arguments_that_are_no_text_are_errors_without_a_panic() {
    use std::ffi::OsStr;
    use std::os::unix::ffi::OsStrExt;
    let name = OsStr::from_bytes(b"\xff\xfe");
    for arguments in [&[OsStr::new("score"), name, name][..], &[name]] {
        let mut refine = Command::new(env!("CARGO_BIN_EXE_refine"));
        let output = refine.args(arguments).output().expect("refine ends");
        assert_eq!(output.status.code(), Some(2));
    }
}
