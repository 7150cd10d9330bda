//! `refine whatif`.

use super::{check_answer, check_usage_error, file, refine, Said};

fn whatif(test: &str, job: &str, words: &[&str]) -> Said {
    let job = file(&format!("whatif_{test}.job"), job);
    refine(&[&["whatif", &job], words].concat())
}

/// A job of one row: sites, D and R, and cells by given site and width, all of equal heights.
fn one_row(limits: &str, cells: &[(u32, u32)]) -> String {
    let line = |(given, width): &(u32, u32)| format!("C,0,{given},0,1,{width},1,1,1,1\n");
    let cells: String = cells.iter().map(line).collect();
    format!("J,1,{limits},1,1,1,1\n{cells}")
}

/// The cheapest costs with R 0, 1 and 2.
type ByReordering = [&'static str; 3];

/// The lines of costs, by D from 0 on.
fn costs(by_displacement: [ByReordering; 8]) -> String {
    let mut lines = String::new();
    for (displacement, costs) in by_displacement.iter().enumerate() {
        for (reordering, cost) in costs.iter().enumerate() {
            lines += &format!("cost,{displacement},{reordering},{cost}\n");
        }
    }
    lines
}

const NONE: ByReordering = ["none"; 3];

/// What the lines of costs are followed by.
fn check(test: &str, job: &str, own: &str, by_displacement: [ByReordering; 8], ways: &str) {
    let expected = format!("{own}\n{}{ways}", costs(by_displacement));
    check_answer(whatif(test, job, &[]), &expected);
}

/// Up to D 1 cells 3 and 4 keep their step, 100, and cell 1 is mirrored, 10. From D 2 on the tall
/// cell goes two sites to the right. From D 4 on cell 2 goes to site 8, four sites behind cell 1,
/// which need not be mirrored. What R 2 alone allows has the tall cell before cell 1, given ten sites
/// behind it, for 13 sites shifted and more.
#[test]
fn the_cheapest_cost_for_each_displacement_and_reordering() {
    let costs = costs([
        ["110"; 3], ["110"; 3], ["12"; 3], ["12"; 3], ["6"; 3], ["6"; 3], ["6"; 3], ["6"; 3],
    ]);
    let said = refine(&["whatif", "examples/desk.job"]);
    check_answer(said, &format!("job,2,1,12\n{costs}"));
}

/// The fixed cell leaves ten sites to the others, of which two are empty: behind both, as given,
/// between them, or before both. From D 2 on they are best between them, for each R: in the other
/// order the steps are the same, as both cells have the same heights, and more sites are shifted. Led
/// by `J` the job costs 300 for each D.
#[test]
fn a_job_that_weighs_filled_steps_keeps_its_weights() {
    let (near, far) = (["230"; 3], ["162"; 3]);
    let costs = costs([near, near, far, far, far, far, far, far]);
    let said = refine(&["whatif", "examples/filled.job"]);
    check_answer(said, &format!("job,2,0,162\n{costs}"));
}

/// Two cells of three sites need six; with other sites the first line is still led by `K`.
#[test]
fn a_job_led_by_k_may_lack_sites() {
    let job = one_row("5,0,1", &[(0, 3), (3, 3)]);
    let job = job.replacen('J', "K", 1).replacen(",1\n", ",1,1\n", 1);
    assert!(job.starts_with("K,1,5,0,1,1,1,1,1,1\nC"), "{job}");
    let ways = "line,3,2\nsmallest D,none\nsmallest R,none\nsmallest sites,6\n";
    check("filled_sites", &job, "job,0,1,none", [NONE; 8], ways);
}

#[test]
fn a_job_without_cells_costs_nothing() {
    check(
        "cells",
        "J,2,9,3,0,1,1,1,1\n",
        "job,3,0,0",
        [["0"; 3]; 8],
        "",
    );
}

/// One empty site between the cells; with D 1 cell 2 goes left or right. More sites or fewer do not
/// help where nothing may shift.
#[test]
fn a_job_that_lacks_displacement() {
    let costs = [
        NONE, ["1"; 3], ["1"; 3], ["1"; 3], ["1"; 3], ["1"; 3], ["1"; 3], ["1"; 3],
    ];
    let ways = "line,3,2\nsmallest D,1\nsmallest R,none\nsmallest sites,none\n";
    let job = one_row("6,0,1", &[(0, 2), (3, 2)]);
    check("displacement", &job, "job,0,1,none", costs, ways);
}

/// Cells of two sites and of one, both given at 2. With D 1 in file order cell 1 would be at 1,
/// with one site before it; exchanged they are at 3 and 2, for 1. With D 2 in file order they are
/// at 0 and 2, or at 2 and 4, for 2. Sites behind them do not matter.
#[test]
fn a_job_that_lacks_reordering() {
    let far = ["2", "1", "1"];
    let costs = [NONE, ["none", "1", "1"], far, far, far, far, far, far];
    let ways = "line,3,2\nsmallest D,2\nsmallest R,1\nsmallest sites,none\n";
    let job = one_row("5,1,0", &[(2, 2), (2, 1)]);
    check("reordering", &job, "job,1,0,none", costs, ways);
}

/// Three cells, all given at 1, fill the row. The wide one goes behind both others, which takes R 2,
/// or one of these goes to 4, three sites to the right; in file order both do, to 3 and 4, and the
/// wide one to 0. However many sites there are, with D 1 the wide one leaves room before it alone.
#[test]
fn a_job_that_lacks_reordering_by_two() {
    let (near, far) = (["none", "none", "2"], ["6", "4", "2"]);
    let costs = [NONE, near, near, far, far, far, far, far];
    let ways = "line,3,2\nsmallest D,3\nsmallest R,2\nsmallest sites,none\n";
    let job = one_row("5,1,1", &[(1, 3), (1, 1), (1, 1)]);
    check("by_two", &job, "job,1,1,none", costs, ways);
}

/// The row is full. Only cell 1 behind cells 2 and 3 has no step and needs D 5; of the other orders
/// without a step one costs more and one needs D 6. File order has two steps, and what else R 2
/// allows up to D 4 has as many or more.
#[test]
fn what_reordering_by_two_saves() {
    let (near, far) = (["200"; 3], ["200", "200", "9"]);
    let costs = costs([near, near, near, near, near, far, far, far]);
    let said = refine(&["whatif", "examples/reorder.job"]);
    check_answer(said, &format!("job,5,2,9\n{costs}"));
}

/// Two cells of three sites need six.
#[test]
fn a_job_that_lacks_sites() {
    let ways = "line,3,2\nsmallest D,none\nsmallest R,none\nsmallest sites,6\n";
    let job = one_row("5,0,1", &[(0, 3), (3, 3)]);
    check("sites", &job, "job,0,1,none", [NONE; 8], ways);
}

/// Two cells of three sites leave one of seven empty: six sites would do, or eight.
#[test]
fn a_job_with_a_site_too_many() {
    let job = one_row("7,0,1", &[(0, 3), (3, 3)]);
    let ways = "line,3,2\nsmallest D,none\nsmallest R,none\nsmallest sites,6\nmore sites,8\n";
    check("surplus", &job, "job,0,1,none", [NONE; 8], ways);
    let (table, ..) = whatif("surplus_table", &job, &["--table"]);
    let start = "the job: D 0, R 1, sites 7; no legal placement\n\n      \
        R 0   R 1   R 2\n\
        D 0  none  none  none\n";
    assert!(table.starts_with(start), "{table}");
    let end = "D 7  none  none  none\n\n\
        no placement exists any more with line 3, cell 2\n\
        what alone would give one:\n  \
          smallest D: none\n  \
          smallest R: none\n  \
          smallest sites: 6\n  \
          more sites: 8\n";
    assert!(table.ends_with(end), "{table}");
}

/// Cell 1 alone leaves one site at the row's end, which cell 2 takes; cell 3 finds none.
#[test]
fn fewer_lines_need_not_have_a_placement() {
    let ways = "line,4,3\nsmallest D,none\nsmallest R,none\nsmallest sites,none\n";
    let job = one_row("5,0,0", &[(0, 4), (4, 1), (4, 1)]);
    check("lines", &job, "job,0,0,none", [NONE; 8], ways);
}

/// Its only cell ends past the row.
#[test]
fn the_first_line_of_a_cell_may_be_one_too_many() {
    let ways = "line,2,1\nsmallest D,none\nsmallest R,none\nsmallest sites,6\n";
    let job = one_row("5,7,0", &[(0, 6)]);
    check("first", &job, "job,7,0,none", [NONE; 8], ways);
}

/// Two fixed cells leave one site between them, whatever D, R and sites are. With D 1 either may go
/// to the other, once it is free; with D 0 neither.
#[test]
fn a_fixed_cell_may_be_in_the_way() {
    let job = |limit: u32| one_row(&format!("20,{limit},1"), &[(2, 4), (7, 4)]).replace('C', "F");
    let ways = |free: &str| {
        let limits = "smallest D,none\nsmallest R,none\nsmallest sites,none\n";
        format!("line,3,2\n{limits}free cell,{free}\n")
    };
    check("in_way", &job(1), "job,1,1,none", [NONE; 8], &ways("1"));
    check("held", &job(0), "job,0,1,none", [NONE; 8], &ways("none"));
    let (table, ..) = whatif("in_way_table", &job(1), &["--table"]);
    let start = "the job: D 1, R 1, sites 20, fixed cells 2; no legal placement\n\n";
    assert!(table.starts_with(start), "{table}");
    assert!(
        table.ends_with("  smallest sites: none\n  free cell: 1\n"),
        "{table}"
    );
}

/// Cell 1 is fixed. Cell 2, one site behind it and one before the row's end, needs one site.
#[test]
fn a_displacement_moves_the_free_cells_alone() {
    let costs = [
        NONE, ["1"; 3], ["1"; 3], ["1"; 3], ["1"; 3], ["1"; 3], ["1"; 3], ["1"; 3],
    ];
    let ways = "line,3,2\nsmallest D,1\nsmallest R,none\nsmallest sites,none\nfree cell,none\n";
    let job = one_row("6,0,1", &[(0, 2), (3, 2)]).replacen('C', "F", 1);
    check("fixed", &job, "job,0,1,none", costs, ways);
    // With a placement there is nothing to free, and a fixed cell stays where it is with every D.
    let job = one_row("6,1,1", &[(0, 2), (3, 2)]).replacen('C', "F", 1);
    check("placed", &job, "job,1,1,1", costs, "");
}

#[test]
fn a_refused_job_is_told_as_by_refine() {
    let (output, notes, status) = whatif("refused", "J,1,20,8,1,100,1,100,50\n", &[]);
    assert_eq!((&*output, status), ("refused,2,1\n", Some(1)));
    let words = "whatif_refused.job:1: field 4 (D) is 8; allowed 0 to 7\n";
    assert!(notes.contains(words), "{notes}");
}

#[test]
fn one_file_is_asked_for() {
    let job = "examples/desk.job";
    let command = "the command is `refine whatif [--table] JOB`";
    let count = |count: u32| format!("wrong number of arguments: {count}; {command}");
    check_usage_error(&["whatif"], &count(0));
    check_usage_error(&["whatif", job, job], &count(2));
    let option = format!("there is no option \"--max-loss\"; {command}");
    check_usage_error(&["whatif", job, "--max-loss", "5"], &option);
}
