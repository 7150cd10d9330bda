//! `refine gaps`.

use super::{check_answer, check_usage_error, on_pair, refine, Said, FILLED, JOB, PLACEMENT};

/// One row of 20 sites with two cells of 4.
const ONE_ROW: &str = include_str!("../../../examples/worked.job");

fn gaps(test: &str, job: &str, placement: &str, words: &[&str]) -> Said {
    on_pair("gaps", test, [job, placement], words)
}

/// Row 0: cells 1 and 2 touch, and two sites are empty before cell 4 and behind it. Row 1: three
/// sites, cell 3, two sites, cell 4, two sites.
#[test]
fn each_row_by_width_with_its_ends_told_apart() {
    let lines = "legal,300,3,0,0,0,0\n\
        gaps,0,0,1,1,0,0,0\n\
        gaps,0,2,0,1,1,2,0\n\
        gaps,0,3,0,0,0,0,0\n\
        gaps,0,4+,0,0,0,0,0\n\
        gaps,1,0,0,0,0,0,0\n\
        gaps,1,2,0,1,1,2,0\n\
        gaps,1,3,1,0,0,0,1\n\
        gaps,1,4+,0,0,0,0,0\n";
    check_answer(gaps("both", JOB, PLACEMENT, &[]), lines);
}

/// Cells 1 and 2 touch, two sites are empty before cell 3, and both ends are taken.
#[test]
fn the_verdict_of_a_job_that_weighs_filled_steps() {
    let placement = "0,0,0\n4,0,0\n10,0,0\n";
    let lines = "legal,230,3,0,0,0,0,1\n\
        gaps,0,0,1,1,1,0,0\n\
        gaps,0,2,0,1,0,1,0\n\
        gaps,0,3,0,0,0,0,0\n\
        gaps,0,4+,0,0,0,0,0\n";
    check_answer(gaps("filled", FILLED, placement, &[]), lines);
    let table = "       \
               cost  steps  sites shifted  mirrored  changed  drift  filled steps\n\
        legal   230      3              0         0        0      0             1\n\
        \n\
        row 0: cells 3, sites 14\n";
    let (said, ..) = gaps("filled_table", FILLED, placement, &["--table"]);
    assert!(said.starts_with(table), "{said}");
}

#[test]
fn a_table_for_people() {
    let table = "       \
               cost  steps  sites shifted  mirrored  changed  drift\n\
        legal   300      3              0         0        0      0\n\
        \n\
        row 0: cells 3, sites 15\n\
        gap  left end  between  right end  fillers of 2  fillers of 3\n\
        \x20 0         1        1          0             0             0\n\
        \x20 2         0        1          1             2             0\n\
        \x20 3         0        0          0             0             0\n\
        \x204+         0        0          0             0             0\n\
        all         1        2          1             2             0\n\
        \n\
        row 1: cells 2, sites 15\n\
        gap  left end  between  right end  fillers of 2  fillers of 3\n\
        \x20 0         0        0          0             0             0\n\
        \x20 2         0        1          1             2             0\n\
        \x20 3         1        0          0             0             1\n\
        \x204+         0        0          0             0             0\n\
        all         1        1          1             2             1\n";
    check_answer(gaps("table", JOB, PLACEMENT, &["--table"]), table);
}

/// Gaps of 7, 5 and 10 sites: 2+2+3, 2+3, and 2+2+3+3.
#[test]
fn wide_gaps_are_counted_together() {
    let job = "J,1,30,7,1,1,1,1,1\nC,0,7,0,1,4,1,1,1,1\nC,0,16,0,1,4,1,1,1,1\n";
    let lines = "legal,0,0,0,0,0,0\n\
        gaps,0,0,0,0,0,0,0\n\
        gaps,0,2,0,0,0,0,0\n\
        gaps,0,3,0,0,0,0,0\n\
        gaps,0,4+,1,1,1,5,4\n";
    check_answer(gaps("wide", job, "7,0,0\n16,0,0\n", &[]), lines);
}

#[test]
fn a_row_without_cells_is_one_gap() {
    let job = "J,2,8,7,1,1,1,1,1\nC,1,2,0,1,6,1,1,1,1\n";
    let lines = "legal,0,0,0,0,0,0\n\
        empty,0,8,1,2\n\
        gaps,1,0,0,0,1,0,0\n\
        gaps,1,2,1,0,0,1,0\n\
        gaps,1,3,0,0,0,0,0\n\
        gaps,1,4+,0,0,0,0,0\n";
    check_answer(gaps("empty", job, "2,0,0\n", &[]), lines);
    let (table, ..) = gaps("empty_table", job, "2,0,0\n", &["--table"]);
    let words = "\nrow 0: no cells, 8 sites; fillers of 2: 1, of 3: 2\n\nrow 1: cells 1, sites 8\n";
    assert!(table.contains(words), "{table}");
    // Rule 8 leaves a row without cells free, also one of a single site, which no filler closes.
    let single = "legal,0,0,0,0,0,0\nempty,0,1,0,0\nopen,0,0,end,end\n";
    check_answer(gaps("single", "J,1,1,7,1,1,1,1,1\n", "", &[]), single);
}

/// One site at the row's start, between the cells, and at the row's end.
#[test]
fn a_single_site_is_told_with_its_sides() {
    let job = "J,1,11,7,1,1,1,1,1\nC,0,1,0,1,4,1,1,1,1\nC,0,6,0,1,4,1,1,1,1\n";
    let (output, notes, status) = gaps("open", job, "1,0,0\n6,0,0\n", &[]);
    let lines = "broken,5,1\n\
        gaps,0,0,0,0,0,0,0\n\
        gaps,0,2,0,0,0,0,0\n\
        gaps,0,3,0,0,0,0,0\n\
        gaps,0,4+,0,0,0,0,0\n\
        open,0,0,end,1\n\
        open,0,5,1,2\n\
        open,0,10,2,end\n";
    assert_eq!((&*output, status), (lines, Some(0)));
    let words = "/gaps_open.placement:1: one-site gap: cell 1, cell 2.\n";
    assert!(notes.ends_with(words), "{notes}");
    let (table, ..) = gaps("open_table", job, "1,0,0\n6,0,0\n", &["--table"]);
    assert!(table.starts_with("broken: rule 5, cell 1\n"), "{table}");
    let words = "\
        cannot be closed: one empty site, 0, between the row's start and cell 1\n\
        cannot be closed: one empty site, 5, between cells 1 and 2\n\
        cannot be closed: one empty site, 10, between cell 2 and the row's end\n";
    assert!(table.ends_with(words), "{table}");
}

/// A placement that breaks a rule on its order alone has its gaps like any other.
#[test]
fn a_broken_placement_has_its_gaps_too() {
    let (output, notes, status) = gaps("shifted", ONE_ROW, "4,0,0\n8,0,0\n", &[]);
    let lines = "broken,3,1\n\
        gaps,0,0,0,1,0,0,0\n\
        gaps,0,2,0,0,0,0,0\n\
        gaps,0,3,0,0,0,0,0\n\
        gaps,0,4+,1,0,1,3,2\n";
    assert_eq!((&*output, status), (lines, Some(0)));
    let words = "/gaps_shifted.placement:1: shifted too far: cell 1, cell 2.\n";
    assert!(notes.ends_with(words), "{notes}");
}

#[test]
fn a_row_that_cannot_be_told_is_skipped() {
    let skipped = |test, placement| gaps(test, ONE_ROW, placement, &[]).0;
    let overlap = skipped("overlap", "2,0,0\n5,0,0\n");
    assert_eq!(overlap, "broken,4,1\nskipped,0,2,overlap\n");
    let outside = skipped("outside", "2,0,0\n17,0,0\n");
    assert_eq!(outside, "broken,2,2\nskipped,0,2,outside row\n");
    let layout = skipped("layout", "2,1,0\n6,0,0\n");
    assert_eq!(layout, "broken,1,1\nskipped,0,1,choice not offered\n");
    let (table, ..) = gaps("skipped", ONE_ROW, "2,0,0\n5,0,0\n", &["--table"]);
    let words = "\nrow 0: its gaps cannot be told, for cell 2: overlap\n";
    assert!(table.ends_with(words), "{table}");
}

#[test]
fn a_refused_text_is_told_as_by_score() {
    let (output, notes, status) = gaps("refused", ONE_ROW, "2,0\n", &[]);
    assert_eq!((&*output, status), ("refused,5,1\n", Some(1)));
    assert!(notes.contains("refused.placement:1: 2 fields"), "{notes}");
}

#[test]
fn options_stand_anywhere_and_others_are_usage_errors() {
    let files = ["examples/desk.job", "examples/desk.placement"];
    let behind = refine(&["gaps", files[0], files[1], "--table"]);
    assert_eq!(refine(&["gaps", "--table", files[0], files[1]]), behind);
    let command = "the command is `refine gaps [--table] JOB PLACEMENT`";
    let count = format!("wrong number of arguments: 1; {command}");
    check_usage_error(&["gaps", files[0], "--table"], &count);
    let option = format!("there is no option \"--csv\"; {command}");
    check_usage_error(&["gaps", "--csv", files[0], files[1]], &option);
}
