//! The edges of the scope that concern Score and Fault line, one by one.

use importer::{copied_fault_line, fault_line, score, Broken, Refused, Verdict};

/// Cost and drift of a legal placement, a broken rule and its cell, or a refusal and its line.
#[derive(Clone, Copy, Debug, PartialEq, Eq)]
enum Said {
    Legal { cost: u32, drift: i32 },
    Broken { rule: u32, cell: u32 },
    Refused { number: u32, line: u32 },
}

fn said(job: &str, placement: &str) -> Said {
    match score(job.as_bytes(), placement.as_bytes()) {
        Ok(Verdict::Legal(numbers)) => Said::Legal {
            cost: numbers.cost,
            drift: numbers.drift,
        },
        Ok(Verdict::Broken(Broken { rule, cell })) => Said::Broken { rule, cell },
        Err(Refused { number, line }) => Said::Refused { number, line },
    }
}

/// Scores each pair of texts and reports every one of which Score says something else.
fn work_through(edges: &[(&str, &str, &str, Said)]) {
    let mut disagreeing = Vec::new();
    for (edge, job, placement, expected) in edges {
        let said = said(job, placement);
        if said != *expected {
            disagreeing.push(format!("{edge}: {said:?} for {expected:?}"));
        }
    }
    assert!(disagreeing.is_empty(), "{}", disagreeing.join("\n"));
}

const fn legal(cost: u32) -> Said {
    Said::Legal { cost, drift: 0 }
}

const fn broken(rule: u32, cell: u32) -> Said {
    Said::Broken { rule, cell }
}

const fn refused(number: u32, line: u32) -> Said {
    Said::Refused { number, line }
}

const WORKED: &str = include_str!("../../../examples/worked.job");

/// Two cells of width 2 whose facing heights both differ, D 7, R 0, step weight 1.
const STEPS: &str = "J,1,40,7,0,1,0,0,0\nC,0,0,0,1,2,1,1,1,1\nC,0,2,0,1,2,2,2,2,2\n";

#[test]
fn gaps_and_steps() {
    work_through(&[
        ("gap 0", STEPS, "0,0,0\n2,0,0\n", legal(2)),
        ("gap 1", STEPS, "0,0,0\n3,0,0\n", broken(5, 1)),
        (
            "gap 2",
            STEPS,
            "0,0,0\n4,0,0\n",
            Said::Legal {
                cost: 2,
                drift: 100,
            },
        ),
        (
            "gap 3",
            STEPS,
            "0,0,0\n5,0,0\n",
            Said::Legal {
                cost: 2,
                drift: 150,
            },
        ),
        (
            "gap 4",
            STEPS,
            "0,0,0\n6,0,0\n",
            Said::Legal {
                cost: 0,
                drift: 200,
            },
        ),
    ]);
}

#[test]
fn the_worked_example() {
    work_through(&[
        ("the cheapest", WORKED, "2,0,1\n6,0,0\n", legal(100)),
        ("the given rows", WORKED, "2,0,0\n6,0,0\n", legal(200)),
        ("gap 1", WORKED, "2,0,0\n7,0,0\n", broken(5, 1)),
        ("overlap", WORKED, "3,0,0\n6,0,0\n", broken(4, 1)),
        ("D + 1", WORKED, "2,0,0\n8,0,0\n", broken(3, 2)),
        ("past the row", WORKED, "2,0,0\n17,0,0\n", broken(2, 2)),
        ("no such layout", WORKED, "2,1,0\n6,0,0\n", broken(1, 1)),
        ("not mirrorable", WORKED, "2,0,0\n6,0,1\n", broken(1, 2)),
        ("mark 2", WORKED, "2,0,2\n6,0,0\n", broken(1, 1)),
        (
            "all at 9,999",
            WORKED,
            "9999,9999,9999\n9999,9999,9999\n",
            broken(1, 1),
        ),
        ("far right", WORKED, "2,0,0\n9999,0,0\n", broken(2, 2)),
    ]);
}

#[test]
fn placement_texts() {
    work_through(&[
        ("no lines", WORKED, "", refused(5, 1)),
        ("a line missing", WORKED, "2,0,1\n", refused(5, 2)),
        ("a line feed missing", WORKED, "2,0,1\n6,0,0", refused(5, 2)),
        (
            "a line surplus",
            WORKED,
            "2,0,1\n6,0,0\n6,0,0\n",
            refused(5, 3),
        ),
        (
            "a line feed surplus",
            WORKED,
            "2,0,1\n6,0,0\n\n",
            refused(5, 3),
        ),
        ("a field missing", WORKED, "2,0\n6,0,0\n", refused(5, 1)),
        ("a field surplus", WORKED, "2,0,1\n6,0,0,0\n", refused(5, 2)),
        ("a leading zero", WORKED, "2,0,1\n06,0,0\n", refused(5, 2)),
        ("five digits", WORKED, "2,0,1\n10000,0,0\n", refused(5, 2)),
        ("the job first", "J\n", "x", refused(1, 1)),
        ("no cells", "J,1,1,0,0,0,0,0,0\n", "", legal(0)),
        (
            "no cells, a line",
            "J,1,1,0,0,0,0,0,0\n",
            "0,0,0\n",
            refused(5, 1),
        ),
    ]);
}

#[test]
fn reordering() {
    let swapped = "1,0,0\n0,0,0\n";
    let job = |reordering: &str, cell: &str| format!("J,2,2,1,{reordering},0,0,0,0\n{cell}{cell}");
    let single = "C,0,0,0,1,1,1,1,1,1\n";
    let tall = "C,2,0,0,1,1,1,1,1,1,1,1,1,1\n";
    let exchanged = Said::Legal { cost: 0, drift: 50 };
    work_through(&[
        ("R 1", &job("1", single), swapped, exchanged),
        ("R 0", &job("0", single), swapped, broken(6, 1)),
        ("R 2", &job("2", single), swapped, exchanged),
        ("tall, R 2", &job("2", tall), swapped, broken(7, 1)),
        ("tall, R 1", &job("1", tall), swapped, broken(7, 1)),
        ("tall, R 0", &job("0", tall), swapped, broken(6, 1)),
    ]);
}

/// A6. The first of some cells of width 1, all given at site 0, stands behind the others, each of which
/// has moved by one place.
#[test]
fn reordering_by_two() {
    let job = |reordering: u32, cells: usize| {
        let cell = "C,0,0,0,1,1,1,1,1,1\n";
        format!("J,1,{cells},7,{reordering},0,0,0,0\n{}", cell.repeat(cells))
    };
    let three = "2,0,0\n0,0,0\n1,0,0\n";
    let four = "3,0,0\n0,0,0\n1,0,0\n2,0,0\n";
    // Three sites are shifted in all, by three cells.
    let legal = Said::Legal {
        cost: 0,
        drift: 100,
    };
    work_through(&[
        ("R 2, two passed", &job(2, 3), three, legal),
        ("R 1, two passed", &job(1, 3), three, broken(6, 1)),
        ("R 2, three passed", &job(2, 4), four, broken(6, 1)),
    ]);
}

/// Rule 8 (A1). The cells of each job stand at their given sites.
#[test]
fn row_ends() {
    // Two cells of width 2 on 5 sites, D 1: either way to close the gap leaves one site at an end.
    let two = "J,1,5,1,0,0,1,0,0\nC,0,0,0,1,2,1,1,1,1\nC,0,3,0,1,2,1,1,1,1\n";
    work_through(&[
        ("five sites, gap 1", two, "0,0,0\n3,0,0\n", broken(5, 1)),
        ("five sites, left", two, "0,0,0\n2,0,0\n", broken(8, 2)),
        ("five sites, right", two, "1,0,0\n3,0,0\n", broken(8, 1)),
    ]);
    // A cell of width 2 alone in a row of 5 sites.
    let single = |rows: &str, row: &str, site: &str| {
        format!("J,{rows},5,0,0,0,0,0,0\nC,{row},{site},0,1,2,1,1,1,1\n")
    };
    let tall = |site: &str| format!("J,2,5,0,0,0,0,0,0\nC,2,{site},0,1,2,1,1,1,1,1,1,1,1\n");
    for (site, expected) in [
        ("0", legal(0)),
        ("1", broken(8, 1)),
        ("2", broken(8, 1)),
        ("3", legal(0)),
    ] {
        let placement = &format!("{site},0,0\n");
        work_through(&[
            ("one row", &single("1", "0", site), placement, expected),
            ("row 1 empty", &single("2", "0", site), placement, expected),
            ("row 0 empty", &single("2", "1", site), placement, expected),
            ("tall", &tall(site), placement, expected),
        ]);
    }
    let full = "J,2,1,0,0,0,0,0,0\nC,0,0,0,1,1,1,1,1,1\n";
    let both_ends = "J,1,5,0,0,0,0,0,0\nC,0,1,0,1,3,1,1,1,1\n";
    work_through(&[
        ("an empty row of one site", full, "0,0,0\n", legal(0)),
        ("first and last", both_ends, "1,0,0\n", broken(8, 1)),
    ]);
}

/// Rule 8 of a tall cell that is first, or last, in one of its rows only.
#[test]
fn row_ends_of_a_tall_cell() {
    let header = "J,2,9,0,0,0,0,0,0\n";
    let single = |row: u32, site: u32, width: u32| format!("C,{row},{site},0,1,{width},1,1,1,1\n");
    let tall = |site: u32, width: u32| format!("C,2,{site},0,1,{width},1,1,1,1,1,1,1,1\n");
    let last = |row: u32| format!("{header}{}{}", tall(2, 6), single(row, 8, 1));
    let first = |row: u32| format!("{header}{}{}", single(row, 0, 1), tall(1, 6));
    let free = format!("{header}{}{}", single(1, 0, 2), tall(2, 5));
    work_through(&[
        ("first in row 1", &first(0), "0,0,0\n1,0,0\n", broken(8, 2)),
        ("first in row 0", &first(1), "0,0,0\n1,0,0\n", broken(8, 2)),
        ("last in row 1", &last(0), "2,0,0\n8,0,0\n", broken(8, 1)),
        ("last in row 0", &last(1), "2,0,0\n8,0,0\n", broken(8, 1)),
        ("two sites", &free, "0,0,0\n2,0,0\n", legal(0)),
    ]);
}

/// Rule 8 is tried last, and its cell is the lowest of all that break it.
#[test]
fn the_lowest_cell_of_row_ends() {
    let single = |row: u32, site: u32, width: u32| format!("C,{row},{site},0,1,{width},1,1,1,1\n");
    let job = |cells: &[String]| format!("J,2,9,7,1,0,0,0,0\n{}", cells.concat());
    // Row 0 has one site behind cell 1, row 1 one before cell 2.
    let rows = job(&[single(0, 6, 2), single(1, 1, 3)]);
    // Row 1 alone has one site at an end, before its first cell and behind its last.
    let second = job(&[single(0, 0, 9), single(1, 1, 3), single(1, 4, 4)]);
    let behind = job(&[single(0, 0, 9), single(1, 0, 3), single(1, 3, 5)]);
    // Cell 2 stands before cell 1.
    let pair = job(&[single(0, 1, 3), single(0, 1, 4)]);
    let wide = job(&[single(0, 1, 4), single(0, 1, 4)]);
    let exchanged = Said::Legal {
        cost: 0,
        drift: 100,
    };
    work_through(&[
        ("both rows", &rows, "6,0,0\n1,0,0\n", broken(8, 1)),
        ("row 1 alone", &rows, "7,0,0\n1,0,0\n", broken(8, 2)),
        ("row 0 alone", &rows, "6,0,0\n0,0,0\n", broken(8, 1)),
        ("neither", &rows, "7,0,0\n0,0,0\n", legal(0)),
        ("two cells", &second, "0,0,0\n1,0,0\n4,0,0\n", broken(8, 2)),
        ("behind", &behind, "0,0,0\n0,0,0\n3,0,0\n", broken(8, 3)),
        ("cell 2 first", &wide, "5,0,0\n1,0,0\n", broken(8, 2)),
        ("both ends", &pair, "5,0,0\n1,0,0\n", broken(8, 1)),
        ("no end", &pair, "4,0,0\n0,0,0\n", exchanged),
    ]);
}

/// Each placement leaves one empty site at an end too.
#[test]
fn rule_8_is_tried_last() {
    let job = |limits: &str, row: &str, heights: &str| {
        let cell = format!("C,{row},0,0,1,1,1,1,1,1{heights}\n");
        format!("J,2,5,{limits},0,0,0,0\n{cell}{cell}")
    };
    let single = job("4,1", "0", "");
    let near = job("1,1", "0", "");
    let in_order = job("4,0", "0", "");
    let tall = job("4,1", "2", ",1,1,1,1");
    work_through(&[
        ("rule 1", &single, "1,0,1\n2,0,0\n", broken(1, 1)),
        ("rule 2", &single, "1,0,0\n5,0,0\n", broken(2, 2)),
        ("rule 3", &near, "1,0,0\n2,0,0\n", broken(3, 2)),
        ("rule 4", &single, "1,0,0\n1,0,0\n", broken(4, 1)),
        ("rule 5", &single, "1,0,0\n3,0,0\n", broken(5, 1)),
        ("rule 6", &in_order, "2,0,0\n1,0,0\n", broken(6, 1)),
        ("rule 7", &tall, "2,0,0\n1,0,0\n", broken(7, 1)),
        ("rule 8", &single, "2,0,0\n1,0,0\n", broken(8, 2)),
        ("tall", &tall, "1,0,0\n2,0,0\n", broken(8, 1)),
    ]);
}

const LED_BY_J: &str = "J,1,600,7,0,0,0,0,0\n";
const LED_BY_K: &str = "K,1,600,7,0,0,0,0,0,0\n";

/// A job of so many cells of width 1, eight empty sites apart, which may be shifted by 7.
fn cells_apart(header: &str, cells: i32) -> String {
    let cell = |at: i32| format!("C,0,{},0,1,1,1,1,1,1\n", 9 * at);
    let cells: String = (1..=cells).map(cell).collect();
    format!("{header}{cells}")
}

/// A placement of them with a net shift. Cell after cell is shifted by up to 7 sites, to the right
/// from the last on, to the left from the first on, so that no gap gets smaller.
fn shifted_by(net: i32, cells: i32) -> String {
    let line = |at: i32| {
        let shifted_before = if net < 0 { at - 1 } else { cells - at };
        let shift = (net.abs() - 7 * shifted_before).clamp(0, 7);
        format!("{},0,0\n", 9 * at + shift * net.signum())
    };
    (1..=cells).map(line).collect()
}

/// Checks the drift of each net shift over so many cells; of its negative, drift is the negative.
fn check_drifts(header: &str, cells: i32, drifts: &[(i32, i32)]) {
    let job = cells_apart(header, cells);
    for &(net, drift) in drifts {
        for (net, drift) in [(net, drift), (-net, -drift)] {
            let edge = format!("net {net} over {cells}");
            let expected = Said::Legal { cost: 0, drift };
            work_through(&[(&edge, &job, &shifted_by(net, cells), expected)]);
        }
    }
}

/// A9, by hand.
#[test]
fn drift_rounds_halves_to_even() {
    let job = cells_apart(LED_BY_J, 8);
    let placement = |net: i32| shifted_by(net, 8);
    let drift = |drift| Said::Legal { cost: 0, drift };
    work_through(&[
        ("net -1", &job, &placement(-1), drift(-12)),
        ("net +1", &job, &placement(1), drift(12)),
        ("net 0", &job, &placement(0), drift(0)),
        ("net +3", &job, &placement(3), drift(38)),
        ("net -3", &job, &placement(-3), drift(-38)),
    ]);
    // One site over 8 cells is 12.5 hundredths: 12.5, 25, 37.5, 50, 62.5 and so on up to 187.5.
    let over_8 = [
        12, 25, 38, 50, 62, 75, 88, 100, 112, 125, 138, 150, 162, 175, 188,
    ];
    let over_8: Vec<(i32, i32)> = (1..).zip(over_8).collect();
    check_drifts(LED_BY_J, 8, &over_8);
    check_drifts(LED_BY_K, 8, &over_8);
    // 6.25, 12.5, 18.75 and 37.5.
    check_drifts(LED_BY_J, 16, &[(1, 6), (2, 12), (3, 19), (6, 38)]);
    // 4.17, 12.5, 20.83 and 37.5.
    check_drifts(LED_BY_J, 24, &[(1, 4), (3, 12), (5, 21), (9, 38)]);
    // 2.5, 5, 7.5, 12.5, 17.5 and 22.5.
    let over_40 = [(1, 2), (2, 5), (3, 8), (5, 12), (7, 18), (9, 22)];
    check_drifts(LED_BY_J, 40, &over_40);
    // 1.56, 10.94, 12.5, 14.06, 37.5, 62.5 and 687.5.
    let over_64 = [
        (1, 2),
        (7, 11),
        (8, 12),
        (9, 14),
        (24, 38),
        (40, 62),
        (440, 688),
    ];
    check_drifts(LED_BY_J, 64, &over_64);
    // Thirds are no halves: 33.33 and 66.67.
    check_drifts(LED_BY_J, 3, &[(1, 33), (2, 67)]);
}

/// Every net shift over every number of cells: no hundredth is nearer to the mean than drift, and
/// where two are equally near, it is the even one.
#[test]
fn drift_is_the_nearest_hundredth_and_of_two_the_even_one() {
    let mut halves = 0;
    for cells in 1..=64 {
        let job = cells_apart(LED_BY_J, cells);
        for net in -7 * cells..=7 * cells {
            let edge = format!("net {net} over {cells}");
            let Said::Legal { drift, .. } = said(&job, &shifted_by(net, cells)) else {
                panic!("{edge} is legal");
            };
            // How far drift is from the mean, times the cells: of half a hundredth, half of them.
            let off = (cells * drift - 100 * net).abs();
            let is_half = 2 * off == cells;
            assert!(
                2 * off < cells || is_half && drift % 2 == 0,
                "{edge}: {drift}"
            );
            halves += usize::from(is_half);
        }
    }
    // Over 8, 16, 24, 32, 48, 56 and 64 cells the odd multiples of 12.5 up to 700, which are 28 on
    // either side of zero; over 40 those of 2.5, which are 140.
    assert_eq!(halves, 7 * 56 + 280);
}

/// The faulty line is that very part of a text, by its address.
#[test]
fn fault_lines() {
    let job = "J,1,20,1,1,100,1,100,50\nC,0,2,1,1,4,3,3,2,2\nx";
    let line = fault_line(job.as_bytes(), b"");
    assert_eq!(line, b"x");
    assert!(std::ptr::eq(line.as_ptr(), &job.as_bytes()[job.len() - 1]));

    let placement = "2,0,1\n6,0\n7,0,0\n";
    let line = fault_line(WORKED.as_bytes(), placement.as_bytes());
    assert_eq!(line, b"6,0\n");
    assert!(std::ptr::eq(line.as_ptr(), &placement.as_bytes()[6]));

    let missing = "2,0,1\n";
    let line = fault_line(WORKED.as_bytes(), missing.as_bytes());
    assert!(line.is_empty());
    assert!(std::ptr::eq(
        line.as_ptr(),
        missing.as_bytes().as_ptr_range().end
    ));

    assert!(fault_line(b"", b"2,0,1\n").is_empty());
    assert!(fault_line(WORKED.as_bytes(), b"2,0,1\n6,0,0\n").is_empty());
}

/// Its copy is the whole line, of either text, and empty where the line is.
#[test]
fn copied_fault_lines() {
    let copied = |job: &str, placement: &str| {
        String::from_utf8(copied_fault_line(job.as_bytes(), placement.as_bytes()))
    };
    let bad_cell = "J,1,20,1,1,100,1,100,50\nC,0,2,1,1,4,3,3,2\nx";
    assert_eq!(copied(bad_cell, ""), Ok("C,0,2,1,1,4,3,3,2\n".into()));
    assert_eq!(copied("x", "2,0,1\n"), Ok("x".into()));
    assert_eq!(copied(WORKED, "2,0,1\n6,0\n7,0,0\n"), Ok("6,0\n".into()));
    assert_eq!(copied(WORKED, "2,0,1\n"), Ok(String::new()));
    assert_eq!(copied("", "2,0,1\n"), Ok(String::new()));
}
