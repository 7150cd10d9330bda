//! `--csv`: a line for each job.

use super::{batch, check_summary, folder, jobs, put, summary, text};
use super::{DESK, DESK_PLACEMENT, PAST, TIGHT, WORKED};
use super::{FILLED, FILLED_ANSWER, FILLED_GIVEN};

const HEADING: &str = "file,status,refusal,line,cost,steps,sites shifted,mirrored,changed,drift,\
    placement,rule,cell,placement line,placement cost,cost saved,filled steps\n";

/// Checks the lines behind the heading.
fn check_lines(csv: &str, lines: &[&str]) {
    let rest = csv.strip_prefix(HEADING).expect("the heading");
    assert_eq!(rest.lines().collect::<Vec<_>>(), lines);
    assert!(rest.ends_with('\n') || lines.is_empty(), "{csv}");
}

#[test]
fn a_line_has_what_came_of_the_job() {
    let folder = jobs("csv");
    check_summary(batch(&folder, &["--csv", "all.csv", "."]), &summary(0));
    let lines = [
        "./desk.job,answered,,,12,0,2,1,0,50,legal,,,,300,288,",
        "./falling.job,refused,4,3,,,,,,,,,,,,,",
        "./past.job,answered,,,7,0,1,0,0,-100,,,,,,,",
        "./tight.job,refused,8,0,,,,,,,,,,,,,",
        "./worked.job,answered,,,100,0,0,1,0,0,,,,,,,",
    ];
    check_lines(&text(folder.join("all.csv")), &lines);
}

#[test]
fn the_lines_are_the_same_for_any_number_of_threads() {
    let folder = folder("threads");
    for number in 0..60 {
        let job = [WORKED, PAST, TIGHT, DESK][number % 4];
        put(&folder, format!("{number:02}.job"), job);
    }
    for threads in ["1", "4"] {
        let file = format!("{threads}.csv");
        let (_, notes, status) = batch(&folder, &["-j", threads, "--csv", &file, "."]);
        assert_eq!((&*notes, status), ("", Some(0)));
        for number in 0..60 {
            let output = folder.join(format!("{number:02}.out"));
            std::fs::remove_file(output).expect("there is an output");
        }
    }
    let one = text(folder.join("1.csv"));
    assert_eq!(one.lines().count(), 61);
    let first = format!("{HEADING}./00.job,answered,,,100,0,0,1,0,0,,,,,,,\n");
    assert!(one.starts_with(&first), "{one}");
    assert_eq!(text(folder.join("4.csv")), one);
}

/// A job led by `K` has its filled steps behind all else; those of the placement beside it are not
/// told. Of a refused one there are none.
#[test]
fn filled_steps_stand_in_the_last_column() {
    let folder = folder("filled");
    put(&folder, "a.job", FILLED);
    put(&folder, "a.placement", FILLED_GIVEN);
    put(&folder, "b.job", "K,1,9,0,0,1,1,1,1\n");
    put(&folder, "c.job", "K,1,9,0,0,1,1,1,1,1\n");
    put(&folder, "d.job", PAST);
    let (output, notes, status) = batch(&folder, &["--csv", "all.csv", "."]);
    assert_eq!((&*notes, status), ("", Some(0)), "{output}");
    let lines = [
        "./a.job,answered,,,162,3,2,0,0,67,legal,,,,230,68,2",
        "./b.job,refused,1,1,,,,,,,,,,,,,",
        "./c.job,answered,,,0,0,0,0,0,0,,,,,,,0",
        "./d.job,answered,,,7,0,1,0,0,-100,,,,,,,",
    ];
    check_lines(&text(folder.join("all.csv")), &lines);
    assert_eq!(text(folder.join("a.out")), FILLED_ANSWER);
}

/// Cell 4 of the second one leaves one empty site at the rows' ends; the third has a line of two
/// fields; the job of the fourth is refused; that of the fifth has no legal placement.
#[test]
fn placements_beside_the_jobs_are_compared() {
    let folder = folder("placements");
    let broken = "0,0,1\n4,0,0\n3,0,0\n11,0,0\n";
    let bad = "0,0,1\n4,0\n";
    let pairs = [
        ("1", DESK, DESK_PLACEMENT),
        ("2", DESK, broken),
        ("3", DESK, bad),
        ("4", "J,1\n", DESK_PLACEMENT),
        ("5", TIGHT, "0,0,0\n2,0,0\n"),
        ("6", WORKED, "2,0,1\n6,0,0\n"),
    ];
    for (name, job, placement) in pairs {
        put(&folder, format!("{name}.job"), job);
        put(&folder, format!("{name}.placement"), placement);
    }
    let counts = "jobs,6 answered,4 refused,1,1 refused,8,1 failed,0 taken over,0";
    let counts = format!("{counts} placements,2,2,1 saved,288");
    check_summary(batch(&folder, &["--csv", "all.csv", "."]), &counts);
    let lines = [
        "./1.job,answered,,,12,0,2,1,0,50,legal,,,,300,288,",
        "./2.job,answered,,,12,0,2,1,0,50,broken,8,4,,,,",
        "./3.job,answered,,,12,0,2,1,0,50,refused,,,2,,,",
        "./4.job,refused,1,1,,,,,,,,,,,,,",
        "./5.job,refused,8,0,,,,,,,broken,4,1,,,,",
        "./6.job,answered,,,100,0,0,1,0,0,legal,,,,100,0,",
    ];
    check_lines(&text(folder.join("all.csv")), &lines);
}

#[test]
fn a_name_is_quoted_where_it_needs_it() {
    let folder = folder("quoted");
    let names = ["a,b.job", "c\"d\".job", "e\nf.job", "g h.job"];
    for name in names {
        put(&folder, name, PAST);
    }
    let (_, notes, status) = batch(&folder, &["--csv", "all.csv", "."]);
    assert_eq!((&*notes, status), ("", Some(0)));
    let fields = ",answered,,,7,0,1,0,0,-100,,,,,,,\n";
    let names = [
        "\"./a,b.job\"",
        "\"./c\"\"d\"\".job\"",
        "\"./e\nf.job\"",
        "./g h.job",
    ];
    let lines: String = names.iter().map(|name| format!("{name}{fields}")).collect();
    assert_eq!(text(folder.join("all.csv")), format!("{HEADING}{lines}"));
}

#[test]
fn a_file_that_stood_there_is_replaced_whole() {
    let folder = folder("replaced");
    put(&folder, "a.job", PAST);
    put(&folder, "all.csv", &"old\n".repeat(1000));
    put(&folder, "all.csv.part", "left over");
    let (_, _, status) = batch(&folder, &["--csv", "all.csv", "."]);
    assert_eq!(status, Some(0));
    let lines = ["./a.job,answered,,,7,0,1,0,0,-100,,,,,,,"];
    check_lines(&text(folder.join("all.csv")), &lines);
    assert!(!folder.join("all.csv.part").exists());
}

/// A device is written to, and never replaced.
#[cfg(unix)]
#[test]
fn a_link_stays_a_link() {
    let folder = folder("link");
    put(&folder, "a.job", PAST);
    put(&folder, "real.csv", "");
    std::os::unix::fs::symlink("real.csv", folder.join("link.csv")).expect("a link");
    let (_, notes, status) = batch(&folder, &["--csv", "link.csv", "a.job"]);
    assert_eq!((&*notes, status), ("", Some(0)));
    assert!(folder.join("link.csv").is_symlink());
    let lines = ["a.job,answered,,,7,0,1,0,0,-100,,,,,,,"];
    check_lines(&text(folder.join("real.csv")), &lines);
}
