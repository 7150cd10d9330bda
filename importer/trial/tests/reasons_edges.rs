//! Sentences worked out by hand, each of the refiner and of the plain one: every phrase, every cell
//! that breaks a rule, and the longest sentences.

use importer::{sentence, Sentence};
use trial::plain::reasons::{reasons, OUTPUT, PHRASES};

fn check(job: &str, placement: &str, expected: &str) {
    let (job, placement) = (job.as_bytes(), placement.as_bytes());
    let said = sentence(job, placement);
    assert_eq!(said.as_deref(), Ok(expected));
    let plain = reasons(job, placement, OUTPUT);
    assert_eq!(plain.as_deref(), Ok(expected));
}

/// Three cells of width 4 in a row of 20 sites, given at 2, 6 and 10; the first is mirrorable, the
/// third has two layouts. D 1, R 1.
const ROW: &str = "J,1,20,1,1,100,1,100,50
C,0,2,1,1,4,3,3,2,2
C,0,6,0,1,4,3,3,2,2
C,0,10,0,2,4,3,3,2,2,5,3,3,2,2
";

#[test]
fn legal_placements() {
    check(ROW, "2,0,0\n6,0,0\n10,0,0\n", "legal.");
    check(ROW, "2,0,1\n6,0,0\n10,1,0\n", "legal.");
    check("J,2,1,0,0,0,0,0,0\n", "", "legal.");
}

#[test]
fn rule_1() {
    let said = "choice not offered: cell 1, cell 2, cell 3.";
    check(ROW, "2,1,0\n6,0,1\n10,2,0\n", said);
    check(ROW, "2,0,2\n6,0,0\n10,0,0\n", "choice not offered: cell 1.");
    // Cell 3 is past the row too, which is not tried.
    let said = "choice not offered: cell 2.";
    check(ROW, "2,0,1\n6,0,1\n9999,0,0\n", said);
    // A fixed cell keeps layout 0 and mark 0, whatever its line offers.
    let fixed = "J,1,20,7,1,0,0,0,0\nF,0,6,1,2,4,3,3,2,2,4,3,3,2,2\n";
    check(fixed, "6,1,0\n", "choice not offered: cell 1.");
    check(fixed, "6,0,1\n", "choice not offered: cell 1.");
}

#[test]
fn rule_2() {
    check(ROW, "2,0,0\n6,0,0\n17,0,0\n", "outside row: cell 3.");
    check(
        ROW,
        "17,0,0\n16,0,0\n16,1,0\n",
        "outside row: cell 1, cell 3.",
    );
}

#[test]
fn rule_3() {
    check(
        ROW,
        "4,0,0\n6,0,0\n12,0,0\n",
        "shifted too far: cell 1, cell 3.",
    );
    check(ROW, "2,0,0\n4,0,0\n10,0,0\n", "shifted too far: cell 2.");
    // Fixed cells 1 and 3 may not move at all, cell 2 by seven sites.
    let cells = "F,0,2,0,1,4,3,3,2,2\nC,0,6,0,1,4,3,3,2,2\nF,0,10,0,1,4,3,3,2,2\n";
    let fixed = format!("J,1,20,7,1,0,0,0,0\n{cells}");
    let said = "shifted too far: cell 1, cell 3.";
    check(&fixed, "3,0,0\n13,0,0\n9,0,0\n", said);
}

/// A cell that overlaps any other is named, whichever of its rows that is in.
#[test]
fn rule_4() {
    check(ROW, "3,0,0\n6,0,0\n10,0,0\n", "overlap: cell 1, cell 2.");
    let all = "overlap: cell 1, cell 2, cell 3.";
    check(ROW, "3,0,0\n6,0,0\n9,0,0\n", all);
    // Cell 1 takes sites 0 to 8; cells 2, 3 and 4 stand on it and only touch each other.
    let cell = |width: u32| format!("C,0,0,0,1,{width},1,1,1,1\n");
    let on_one = format!("J,1,20,7,1,0,0,0,0\n{}", [9, 2, 2, 2].map(cell).concat());
    let said = "overlap: cell 1, cell 2, cell 3, cell 4.";
    check(&on_one, "0,0,0\n1,0,0\n3,0,0\n5,0,0\n", said);
    // The tall cell 2 overlaps cell 3 in row 1; cell 1 touches it in row 0.
    let rows = "J,2,20,1,1,0,0,0,0
C,0,2,0,1,4,1,1,1,1
C,2,6,0,1,4,1,1,1,1,1,1,1,1
C,1,9,0,1,4,1,1,1,1
";
    check(rows, "2,0,0\n6,0,0\n9,0,0\n", "overlap: cell 2, cell 3.");
    // Sites 9 to 11 are taken in both rows, by different cells.
    let apart = "J,2,20,7,1,0,0,0,0\nC,0,8,0,1,4,1,1,1,1\nC,1,9,0,1,4,1,1,1,1\n";
    check(apart, "8,0,0\n9,0,0\n", "legal.");
}

/// Both neighbours break it, and between three cells with two such gaps all three.
#[test]
fn rule_5() {
    check(
        ROW,
        "2,0,0\n6,0,0\n11,0,0\n",
        "one-site gap: cell 2, cell 3.",
    );
    let all = "one-site gap: cell 1, cell 2, cell 3.";
    check(ROW, "1,0,0\n6,0,0\n11,0,0\n", all);
    // In row 0 one site is between cells 1 and 3, in row 1 the tall cell 3 touches cell 2.
    let rows = "J,2,20,1,1,0,0,0,0
C,0,2,0,1,3,1,1,1,1
C,1,2,0,1,4,1,1,1,1
C,2,6,0,1,4,1,1,1,1,1,1,1,1
";
    check(
        rows,
        "2,0,0\n2,0,0\n6,0,0\n",
        "one-site gap: cell 1, cell 3.",
    );
}

/// A place in any of a cell's rows.
#[test]
fn rule_6() {
    let cell = "C,0,1,0,1,1,1,1,1,1\n";
    let row = |reordering: u32, cells: usize| {
        format!("J,1,9,7,{reordering},0,0,0,0\n{}", cell.repeat(cells))
    };
    let both = "order moved too far: cell 1, cell 2.";
    check(&row(0, 2), "3,0,0\n2,0,0\n", both);
    // Cell 1 has passed two cells, each of which has moved by one.
    check(
        &row(1, 3),
        "4,0,0\n2,0,0\n3,0,0\n",
        "order moved too far: cell 1.",
    );
    // With R 2 it may pass two, but not three.
    check(&row(2, 3), "4,0,0\n2,0,0\n3,0,0\n", "legal.");
    check(
        &row(2, 4),
        "5,0,0\n2,0,0\n3,0,0\n4,0,0\n",
        "order moved too far: cell 1.",
    );
    let all = "order moved too far: cell 1, cell 2, cell 3.";
    check(&row(0, 3), "4,0,0\n2,0,0\n3,0,0\n", all);
    // The tall cell 3 has passed cell 1 of row 0, or of row 1; in the other row cells 2, 3 and 4 stay
    // in their order.
    let said = "order moved too far: cell 1, cell 3.";
    for [one, other] in [[0, 1], [1, 0]] {
        let single = |row: u32, given: u32| format!("C,{row},{given},0,1,2,1,1,1,1\n");
        let before = single(one, 6) + &single(other, 0);
        let tall = "C,2,6,0,1,2,1,1,1,1,1,1,1,1\n";
        let rows = format!("J,2,20,7,0,0,0,0,0\n{before}{tall}{}", single(other, 10));
        check(&rows, "8,0,0\n0,0,0\n6,0,0\n10,0,0\n", said);
    }
}

/// A tall cell with any tall cell on its wrong side; cells of one row do not matter.
#[test]
fn rule_7() {
    let tall = "C,2,4,0,1,1,1,1,1,1,1,1,1,1\n";
    let single = "C,0,4,0,1,1,1,1,1,1\n";
    let two = format!("J,2,9,7,1,0,0,0,0\n{tall}{tall}");
    check(
        &two,
        "3,0,0\n2,0,0\n",
        "tall order changed: cell 1, cell 2.",
    );
    check(&two, "2,0,0\n3,0,0\n", "legal.");
    let four = format!("J,2,9,7,1,0,0,0,0\n{}", tall.repeat(4));
    let said = "tall order changed: cell 1, cell 2, cell 3, cell 4.";
    check(&four, "3,0,0\n2,0,0\n5,0,0\n4,0,0\n", said);
    check(
        &four,
        "2,0,0\n4,0,0\n3,0,0\n5,0,0\n",
        "tall order changed: cell 2, cell 3.",
    );
    let mixed = format!("J,2,9,7,1,0,0,0,0\n{tall}{single}{tall}");
    check(&mixed, "3,0,0\n2,0,0\n4,0,0\n", "legal.");
    let said = "tall order changed: cell 1, cell 2.";
    let mixed = format!("J,2,9,7,1,0,0,0,0\n{tall}{tall}{single}");
    check(&mixed, "3,0,0\n2,0,0\n4,0,0\n", said);
}

/// The first cell of a row and the last, over both rows.
#[test]
fn rule_8() {
    check(ROW, "1,0,0\n5,0,0\n9,0,0\n", "one-site row end: cell 1.");
    // Cell 1 of row 0 is first and last; of row 1 cell 2 is the first and cell 3 the last.
    let rows = "J,2,10,7,1,0,0,0,0
C,0,1,0,1,8,1,1,1,1
C,1,1,0,1,4,1,1,1,1
C,1,5,0,1,4,1,1,1,1
";
    let all = "one-site row end: cell 1, cell 2, cell 3.";
    check(rows, "1,0,0\n1,0,0\n5,0,0\n", all);
    check(
        rows,
        "2,0,0\n1,0,0\n5,0,0\n",
        "one-site row end: cell 2, cell 3.",
    );
    check(rows, "2,0,0\n2,0,0\n6,0,0\n", "legal.");
    // The tall cell is the first of row 1 alone, and a row without cells is free.
    let behind = "J,2,20,7,0,0,0,0,0\nC,0,0,0,1,1,1,1,1,1\nC,2,0,0,1,4,1,1,1,1,1,1,1,1\n";
    check(behind, "0,0,0\n1,0,0\n", "one-site row end: cell 2.");
    let alone = "J,2,9,7,0,0,0,0,0\nC,1,0,0,1,7,1,1,1,1\n";
    check(alone, "1,0,0\n", "one-site row end: cell 1.");
}

/// So many cells of one site, each with D 7; tall ones, or those of row 0.
fn cells(row: u32, given: impl Fn(usize) -> usize, count: usize) -> String {
    let heights = if row == 2 { ",1,1,1,1" } else { "" };
    let cell = |at| format!("C,{row},{},0,1,1,1,1,1,1{heights}\n", given(at));
    let cells: String = (0..count).map(cell).collect();
    format!("J,2,1024,7,1,0,0,0,0\n{cells}")
}

/// A placement of so many cells by their sites.
fn at_sites(site: impl Fn(usize) -> usize, count: usize) -> String {
    (0..count).map(|at| format!("{},0,0\n", site(at))).collect()
}

/// All 64 cells break a rule, for rule 7 all 24 that may be tall.
#[test]
fn the_longest_sentences() {
    let at_once = cells(0, |_| 9, 64);
    let in_fours = cells(0, |at| at - at % 4, 64);
    let in_pairs = cells(2, |at| at - at % 2, 24);
    let apart = cells(0, |at| 2 * at, 64);
    let pairs = [
        (1, &at_once, "9,1,0\n".repeat(64)),
        (2, &at_once, at_sites(|_| 1024, 64)),
        (3, &at_once, at_sites(|at| 17 + at, 64)),
        (4, &at_once, at_sites(|_| 9, 64)),
        (5, &apart, at_sites(|at| 2 * at, 64)),
        // Of four cells the last two stand before the first two, so each has moved by two places.
        (6, &in_fours, at_sites(|at| at ^ 2, 64)),
        (7, &in_pairs, at_sites(|at| at ^ 1, 24)),
    ];
    let mut longest = 0;
    for (rule, job, placement) in pairs {
        let cells: Vec<u32> = (1..).take(placement.lines().count()).collect();
        let named: Vec<String> = cells.iter().map(|cell| format!("cell {cell}")).collect();
        let phrase = PHRASES[rule as usize - 1];
        let expected = format!("{phrase}: {}.", named.join(", "));
        check(job, &placement, &expected);
        assert_eq!(expected.parse(), Ok(Sentence::Broken { rule, cells }));
        longest = longest.max(expected.len());
    }
    // `order moved too far: `, 64 times `cell `, 119 digits, 63 times `, `, and the full stop.
    assert_eq!(longest, 21 + 64 * 5 + 119 + 63 * 2 + 1);
    assert!(longest <= OUTPUT);
}
