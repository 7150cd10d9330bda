//! Inputs that cannot be read, outputs that cannot be written, and little memory.

use super::{batch, check_summary, counts, folder, jobs, names, put, summary, text};
use super::{PAST, PAST_ANSWER, REFINE, REORDER, REORDER_ANSWER, WORKED, WORKED_ANSWER};
use std::fs;
use std::path::Path;
use std::process::Command;

/// Checks the notes, the counts and the status of a run that could not do all.
fn check_lacking(folder: &Path, words: &[&str], notes: &[&str], expected: &str) {
    let (output, said, status) = batch(folder, words);
    assert_eq!(status, Some(2), "{said}");
    let lines: Vec<&str> = said.lines().collect();
    assert_eq!(lines.len(), notes.len(), "{said}");
    for (line, note) in lines.iter().zip(notes) {
        assert!(line.starts_with(&format!("refine: {note}")), "{said}");
    }
    assert_eq!(counts(&output), expected);
}

#[test]
fn an_input_that_cannot_be_read_is_told_of_and_the_others_go_on() {
    let folder = folder("unread");
    put(&folder, "a.job", WORKED);
    put(&folder, "z.job", PAST);
    fs::create_dir(folder.join("p.placement")).expect("a folder");
    put(&folder, "p.job", PAST);
    let words = [
        "-j",
        "1",
        "--csv",
        "all.csv",
        "a.job",
        "no.job",
        "a.job/b.job",
    ];
    let words = [&words[..], &["p.job", "z.job"]].concat();
    let notes = [
        "cannot open no.job: there is no such file",
        "cannot open a.job/b.job: Not a directory",
        "cannot read p.placement: Is a directory",
    ];
    let expected = "jobs,5 answered,2 failed,3 taken over,0 placements,0,0,0 saved,0";
    check_lacking(&folder, &words, &notes, expected);
    assert_eq!(text(folder.join("a.out")), WORKED_ANSWER);
    assert_eq!(text(folder.join("z.out")), PAST_ANSWER);
    let csv = text(folder.join("all.csv"));
    let lines: Vec<&str> = csv.lines().skip(2).collect();
    let failed = |name: &str| format!("{name},failed{}", ",".repeat(15));
    assert_eq!(lines[0], failed("no.job"));
    assert_eq!(lines[1], failed("a.job/b.job"));
    assert_eq!(lines[2], failed("p.job"));
    assert!(lines[3].starts_with("z.job,answered,"), "{csv}");
}

#[test]
fn an_output_that_cannot_be_written_is_told_of_and_the_others_go_on() {
    let folder = folder("unwritten");
    for name in ["a.job", "b.job", "c.job"] {
        put(&folder, name, WORKED);
    }
    fs::create_dir(folder.join("a.out")).expect("a folder");
    fs::create_dir(folder.join("b.out.part")).expect("a folder");
    let notes = [
        "cannot write ./a.out: Is a directory",
        "cannot write ./b.out: Is a directory",
    ];
    let expected = "jobs,3 answered,1 failed,2 taken over,0 placements,0,0,0 saved,0";
    check_lacking(&folder, &["-j", "1", "."], &notes, expected);
    assert_eq!(text(folder.join("c.out")), WORKED_ANSWER);
    assert!(!folder.join("c.out.part").exists());
}

/// No file can be made in that folder, by nobody.
#[cfg(target_os = "linux")]
#[test]
fn a_folder_that_takes_no_files_is_told_of() {
    let folder = folder("no_files");
    put(&folder, "a.job", PAST);
    let words = ["/proc/self/status", "a.job"];
    let expected = "jobs,2 answered,1 failed,1 taken over,0 placements,0,0,0 saved,0";
    let notes = ["cannot write /proc/self/status.out: "];
    check_lacking(&folder, &words, &notes, expected);
    assert_eq!(text(folder.join("a.out")), PAST_ANSWER);
}

#[test]
fn a_table_or_a_page_that_cannot_be_written_leaves_the_answers() {
    let folder = jobs("no_table");
    let words = ["--csv", "no/such/all.csv", "."];
    check_lacking(
        &folder,
        &words,
        &["cannot write no/such/all.csv: "],
        &summary(0),
    );
    assert_eq!(text(folder.join("worked.out")), WORKED_ANSWER);
    fs::create_dir_all(folder.join("page/index.html")).expect("a folder");
    let words = ["--html", "page", "."];
    check_lacking(
        &folder,
        &words,
        &["cannot write page/index.html: "],
        &summary(5),
    );
    check_summary(batch(&folder, &["."]), &summary(5));
}

#[test]
fn a_folder_for_the_page_that_cannot_be_made_is_told_of_first() {
    let folder = jobs("no_folder");
    let before = names(&folder);
    let (output, notes, status) = batch(&folder, &["--html", "worked.job/page", "."]);
    assert_eq!((&*output, status), ("", Some(2)));
    let start = "refine: cannot make the folder worked.job/page: ";
    assert!(notes.starts_with(start), "{notes}");
    assert_eq!(names(&folder), before);
}

/// Runs a line of the shell in a folder, in which `$REFINE` is the program.
fn shell(folder: &Path, line: &str) -> (String, String, Option<i32>) {
    let mut bash = Command::new("bash");
    bash.args(["-c", line]).current_dir(folder);
    let output = bash.env("REFINE", REFINE).output().expect("bash ends");
    let text = |bytes: &[u8]| String::from_utf8_lossy(bytes).into_owned();
    (
        text(&output.stdout),
        text(&output.stderr),
        output.status.code(),
    )
}

/// There is memory for the stores and all threads, or for fewer threads, or what is lacking is
/// told before anything is done.
#[test]
fn little_memory_is_told_of_or_is_enough() {
    let folder = folder("memory");
    for number in 0..64 {
        put(&folder, format!("{number:02}.job"), WORKED);
    }
    let run = |limit: &str| {
        let line = "rm -f *.out; ulimit -v $LIMIT; exec \"$REFINE\" batch -j 64 .";
        shell(&folder, &line.replace("$LIMIT", limit))
    };
    let store = "refine: no memory for the store: 4194304 bytes\n";
    assert_eq!(run("100000"), (String::new(), store.into(), Some(2)));
    let fewer = "refine: fewer threads could be started, ";
    let [mut with_fewer, mut with_all] = [0, 0];
    let limits = (270_000..350_000).step_by(8_000);
    let limits = limits.map(|limit: u32| limit.to_string());
    for limit in limits.chain(["unlimited".into()]) {
        let (output, notes, status) = run(&limit);
        if status == Some(2) {
            let starts = [store, "refine: cannot start a thread: "];
            let told = starts.iter().any(|start| notes.starts_with(start));
            assert!(told && output.is_empty(), "{limit}: {notes}");
            continue;
        }
        assert_eq!(status, Some(0), "{limit}: {notes}");
        assert!(output.starts_with("jobs,64\nanswered,64\n"), "{output}");
        match &*notes {
            "" => with_all += 1,
            _ => with_fewer += usize::from(notes.starts_with(fewer)),
        }
    }
    assert!(with_fewer > 0 && with_all > 0, "{with_fewer} {with_all}");
}

/// Jobs with R 2 need a larger store. Where there is no memory for it that is told, and the other
/// jobs are done.
#[test]
fn no_memory_for_a_larger_store_is_told_of_and_the_others_go_on() {
    let folder = folder("larger_store");
    put(&folder, "a.job", WORKED);
    put(&folder, "b.job", REORDER);
    put(&folder, "c.job", PAST);
    let answers =
        || ["a.out", "b.out", "c.out"].map(|name| fs::read_to_string(folder.join(name)).ok());
    let others = |by_two: Option<&str>| {
        [Some(WORKED_ANSWER), by_two, Some(PAST_ANSWER)].map(|answer| answer.map(String::from))
    };
    let told = "refine: cannot place ./b.job: no memory for the store: 16777216 bytes\n";
    let [mut without, mut with] = [0, 0];
    for limit in (8_000..40_000).step_by(1_000) {
        let line = format!("rm -f *.out; ulimit -v {limit}; exec \"$REFINE\" batch -j 1 .");
        let (output, notes, status) = shell(&folder, &line);
        match status {
            Some(0) => {
                assert_eq!(
                    (&*notes, answers()),
                    ("", others(Some(REORDER_ANSWER))),
                    "{limit}"
                );
                with += 1;
            }
            Some(2) if output.starts_with("jobs,3\nanswered,2\nfailed,1\n") => {
                assert_eq!((&*notes, answers()), (told, others(None)), "{limit}");
                without += 1;
            }
            // There is not even memory for the other jobs.
            _ => assert_eq!(answers(), [None, None, None], "{limit}: {notes}"),
        }
    }
    assert!(with > 0 && without > 0, "{with} {without}");
}

#[test]
fn a_summary_that_cannot_be_written_is_an_error() {
    let folder = jobs("full");
    let (_, notes, status) = shell(&folder, "\"$REFINE\" batch . > /dev/full");
    assert_eq!(status, Some(2));
    let start = "refine: cannot write standard output: No space";
    assert!(notes.starts_with(start), "{notes}");
    assert_eq!(text(folder.join("worked.out")), WORKED_ANSWER);
}

/// What a command says on a terminal of its own, by `script`; none where that does not work.
fn on_terminal(folder: &Path, before: &str, words: &str) -> Option<String> {
    let (_, _, status) = shell(folder, "script -qec true /dev/null < /dev/null");
    if status != Some(0) {
        eprintln!("left out, because this does not work here: script");
        return None;
    }
    let line = format!("{before} script -qec '\"$REFINE\" {words}' /dev/null < /dev/null");
    Some(shell(folder, &line).0)
}

#[test]
fn a_short_run_on_a_terminal_says_no_more_than_its_summary() {
    let folder = jobs("terminal");
    let said = || on_terminal(&folder, "", "batch -j 1 worked.job");
    // A machine that is busy with other things may take a tenth of a second.
    let is_short = |said: &Option<String>| match said {
        Some(said) => said.starts_with("jobs,1\r\nanswered,1\r\n"),
        None => true,
    };
    let tries: Vec<_> = (0..3).map(|_| said()).collect();
    assert!(tries.iter().any(is_short), "{tries:?}");
}

/// The second job comes out of a pipe after a while.
#[test]
fn a_terminal_has_a_bar_that_is_gone_at_the_end() {
    let folder = jobs("bar");
    let before = "mkfifo slow.job; (sleep 1.5; cat worked.job > slow.job) &";
    let said = on_terminal(&folder, before, "batch -j 1 worked.job slow.job");
    let Some(said) = said else {
        return;
    };
    let bar = format!("\r[{}{}] 1 of 2 jobs, ", "#".repeat(15), "-".repeat(15));
    assert!(said.starts_with("\r[") && said.contains(&bar), "{said:?}");
    let (bars, summary) = said.rsplit_once(" \r").expect("the bar is written over");
    assert!(bars.ends_with(&" ".repeat(50)), "{said:?}");
    assert!(summary.starts_with("jobs,2\r\nanswered,2\r\n"), "{said:?}");
}
