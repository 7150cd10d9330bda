//! `refine compare`.

use super::{check_answer, check_usage_error, on_pair, Said, FILLED, JOB, PLACEMENT};

/// Cell 2 may be mirrored, and nothing may shift.
const MIRRORED: &str = "\
J,1,16,0,1,100,1,10,50
C,0,0,0,1,4,1,1,1,1
C,0,4,1,1,4,2,2,1,1
C,0,8,0,1,4,1,2,5,5
C,0,12,0,1,4,6,5,1,1
";

fn compare(test: &str, job: &str, placement: &str, words: &[&str]) -> Said {
    on_pair("compare", test, [job, placement], words)
}

/// Cell 1 mirrored turns 3 and 3 to cell 2, for 10; the tall cell two sites further right leaves
/// four sites behind cell 3, for 2, and by one site it would leave just one at the rows' ends.
#[test]
fn numbers_cells_and_steps_that_differ() {
    let lines = "theirs,300,3,0,0,0,0\n\
        cheapest,12,0,2,1,0,50\n\
        saved,288,3,-2,-1,0,-50\n\
        cell,1,0,0,0,0,0,1\n\
        cell,4,10,0,0,12,0,0\n\
        steps,0,3,0\n\
        step gone,0,1,2,P,0\n\
        step gone,0,1,2,N,0\n\
        step gone,1,3,4,N,2\n";
    check_answer(compare("differ", JOB, PLACEMENT, &[]), lines);
}

/// Mirrored, cell 2 turns 1 and 1 to cell 1, and 2 and 2 to the 1 and 2 of cell 3. The step of
/// cells 3 and 4, 5 and 6, stays.
#[test]
fn a_step_may_come_and_another_stay() {
    let placement = "0,0,0\n4,0,0\n8,0,0\n12,0,0\n";
    let lines = "theirs,400,4,0,0,0,0\n\
        cheapest,210,2,0,1,0,0\n\
        saved,190,2,0,-1,0,0\n\
        cell,2,4,0,0,4,0,1\n\
        steps,1,3,1\n\
        step gone,0,1,2,P,0\n\
        step gone,0,1,2,N,0\n\
        step gone,0,2,3,N,0\n\
        step new,0,2,3,P,0\n";
    check_answer(compare("comes", MIRRORED, placement, &[]), lines);
    let table = "          \
               cost  steps  sites shifted  mirrored  changed  drift\n  \
          theirs   400      4              0         0        0      0\n\
        cheapest   210      2              0         1        0      0\n   \
           saved   190      2              0        -1        0      0\n\
        \n\
        cell  their site  layout  mark  cheapest site  layout  mark\n   \
           2           4       0     0              4       0     1\n\
        \n\
        steps that both have: 1\n\
        step  row  left cell  right cell  type  gap\n\
        gone    0          1           2     P    0\n\
        gone    0          1           2     N    0\n\
        gone    0          2           3     N    0\n \
         new    0          2           3     P    0\n";
    check_answer(compare("table", MIRRORED, placement, &["--table"]), table);
}

/// Cell 2 was moved two sites for nothing: the step of 1 and 2 is there at either gap.
#[test]
fn a_step_at_another_gap_stays() {
    let job = "J,1,20,2,0,100,1,1,1\nC,0,0,0,1,4,1,1,1,1\nC,0,4,0,1,4,2,1,1,1\n";
    let lines = "theirs,102,1,2,0,0,100\n\
        cheapest,100,1,0,0,0,0\n\
        saved,2,0,2,0,0,100\n\
        cell,2,6,0,0,4,0,0\n\
        steps,1,0,0\n";
    check_answer(compare("gap", job, "0,0,0\n6,0,0\n", &[]), lines);
}

/// As given, cells 1 and 2 abut with two steps, and cells 2 and 3 have a filled one. In the cheapest
/// cell 2 stands two sites further right: the same steps, but the two are filled and the one is not.
#[test]
fn a_job_that_weighs_filled_steps_has_a_figure_more() {
    let placement = "0,0,0\n4,0,0\n10,0,0\n";
    let lines = "theirs,230,3,0,0,0,0,1\n\
        cheapest,162,3,2,0,0,67,2\n\
        saved,68,0,-2,0,0,-67,-1\n\
        cell,2,4,0,0,6,0,0\n\
        steps,3,0,0\n";
    check_answer(compare("filled", FILLED, placement, &[]), lines);
    let table = "          \
               cost  steps  sites shifted  mirrored  changed  drift  filled steps\n  \
          theirs   230      3              0         0        0      0             1\n\
        cheapest   162      3              2         0        0     67             2\n   \
           saved    68      0             -2         0        0    -67            -1\n\
        \n";
    let (said, ..) = compare("filled_table", FILLED, placement, &["--table"]);
    assert!(said.starts_with(table), "{said}");
    // Cell 2 one site right of its given site.
    let (broken, ..) = compare("filled_broken", FILLED, "0,0,0\n5,0,0\n10,0,0\n", &[]);
    let lines = "broken,5,1\ncheapest,162,3,2,0,0,67,2\ncell,2,5,0,0,6,0,0\n";
    assert_eq!(broken, lines);
    let (_, notes, status) = compare("filled_loss", FILLED, placement, &["--max-loss", "67"]);
    let note = "refine: not accepted: 68 of cost was left, 67 may be\n";
    assert_eq!((&*notes, status), (note, Some(1)));
}

#[test]
fn a_placement_that_is_the_cheapest_differs_in_nothing() {
    let placement = "0,0,1\n4,0,0\n3,0,0\n12,0,0\n";
    let lines = "theirs,12,0,2,1,0,50\n\
        cheapest,12,0,2,1,0,50\n\
        saved,0,0,0,0,0,0\n\
        steps,0,0,0\n";
    let words = ["--max-loss", "0"];
    check_answer(compare("same", JOB, placement, &words), lines);
    let (table, ..) = compare("same_table", JOB, placement, &["--table"]);
    let words = "\neach cell stands the same\n\nsteps that both have: 0\n";
    assert!(table.ends_with(words), "{table}");
}

/// Cell 4 one site right of its given site leaves one empty site at the rows' ends.
#[test]
fn a_broken_placement_is_told_and_the_cheapest_all_the_same() {
    let placement = "0,0,1\n4,0,0\n3,0,0\n11,0,0\n";
    let (output, notes, status) = compare("broken", JOB, placement, &[]);
    let lines = "broken,8,4\ncheapest,12,0,2,1,0,50\ncell,4,11,0,0,12,0,0\n";
    assert_eq!((&*output, status), (lines, Some(0)));
    let words = "/compare_broken.placement:4: one-site row end: cell 4.\n";
    assert!(notes.ends_with(words), "{notes}");
    assert_eq!(notes.lines().count(), 1, "{notes}");
    let (table, ..) = compare("broken_table", JOB, placement, &["--table"]);
    let start = "theirs is broken: rule 8, cell 4\n\n";
    assert!(table.starts_with(start), "{table}");
}

/// The supplier has moved the fixed cell to site 9, and left cell 1 where it was given.
#[test]
fn a_fixed_cell_that_was_moved_is_told_apart() {
    let job = include_str!("../../../examples/fixed.job");
    let placement = "2,0,0\n9,0,0\n16,0,0\n";
    let (output, notes, status) = compare("fixed", job, placement, &[]);
    let lines = "broken,3,2\n\
        cheapest,6,0,6,0,0,67\n\
        cell,1,2,0,0,0,0,0\n\
        fixed,2,9,0,0,8,0,0\n";
    assert_eq!((&*output, status), (lines, Some(0)));
    let words = "/compare_fixed.placement:2: shifted too far: cell 2.\n";
    assert!(notes.ends_with(words), "{notes}");
    let (table, ..) = compare("fixed_table", job, placement, &["--table"]);
    let rows = "   cell  their site  layout  mark  cheapest site  layout  mark\n      \
                   1           2       0     0              0       0     0\n\
                fixed 2           9       0     0              8       0     0\n";
    assert!(table.ends_with(rows), "{table}");
}

#[test]
fn a_delivery_is_accepted_up_to_a_loss() {
    let checked = |test, placement, most| compare(test, JOB, placement, &["--max-loss", most]);
    let (output, notes, status) = checked("over", PLACEMENT, "287");
    assert!(output.starts_with("theirs,300,"), "{output}");
    let note = "refine: not accepted: 288 of cost was left, 287 may be\n";
    assert_eq!((&*notes, status), (note, Some(1)));
    let (within, notes, status) = checked("within", PLACEMENT, "288");
    assert_eq!((within, &*notes, status), (output, "", Some(0)));
    let (_, notes, status) = checked("not_legal", "0,0,1\n4,0,0\n3,0,0\n11,0,0\n", "4294967295");
    let note = "\nrefine: not accepted: the placement is not legal\n";
    assert!(notes.ends_with(note), "{notes}");
    assert_eq!(status, Some(1));
}

/// Two cells of three sites in a row of five.
#[test]
fn a_job_without_a_legal_placement_is_a_refusal() {
    let cell = "C,0,0,0,1,3,1,1,1,1\n";
    let job = format!("J,1,5,7,1,1,1,1,1\n{cell}{cell}");
    let (output, notes, status) = compare("none", &job, "0,0,0\n2,0,0\n", &[]);
    assert_eq!((&*output, status), ("refused,8,0\n", Some(1)));
    assert!(notes.starts_with("refine: refusal 8: "), "{notes}");
    let words = "/compare_none.placement:1: overlap: cell 1, cell 2.\n";
    assert!(notes.ends_with(words), "{notes}");
}

#[test]
fn a_refused_text_is_told_as_by_score() {
    let (output, notes, status) = compare("refused", "J,1\n", "2,0\n", &["--max-loss", "5"]);
    assert_eq!((&*output, status), ("refused,1,1\n", Some(1)));
    assert!(notes.contains("refused.job:1: 2 fields"), "{notes}");
}

#[test]
fn a_loss_is_a_number() {
    let files = ["examples/desk.job", "examples/desk.placement"];
    let command = "the command is `refine compare [--table] [--max-loss N] JOB PLACEMENT`";
    let mistake = format!("--max-loss needs a number behind it; {command}");
    for most in ["", "+5", "-5", "5.0", "4294967296", "--table"] {
        check_usage_error(
            &["compare", files[0], files[1], "--max-loss", most],
            &mistake,
        );
    }
    check_usage_error(&["compare", files[0], files[1], "--max-loss"], &mistake);
}
