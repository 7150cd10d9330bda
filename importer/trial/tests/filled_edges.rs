//! Filled steps have their own weight (A7): its edges, worked out by hand, with a result array of
//! each length.

use importer::{calls, STORE_WORDS};
use trial::lent::{Arrays, LONGEST};

/// Score leaves these results.
fn score_leaves(job: &str, placement: &str, expected: &[i32]) {
    let mut arrays = Arrays::default();
    for _ in 0..=LONGEST {
        let (job, placement) = (job.as_bytes(), placement.as_bytes());
        let left = arrays.lend(|results| calls::score(job, placement, results));
        let left = left.check(expected[0] as u32, expected);
        assert_eq!(left, Ok(()), "{}", job.escape_ascii());
    }
}

/// Buffers that Place is lent: words of store, bytes of output.
#[derive(Clone, Copy)]
struct Lent(usize, usize);

const ENOUGH: Lent = Lent(STORE_WORDS, 18);

/// Place leaves these results and this text, and the store all zero after a search.
fn place_leaves(job: &str, lent: Lent, expected: &[i32], text: &str) {
    let mut arrays = Arrays::default();
    let searched = [0, 8].contains(&expected[0]);
    let mut store = vec![7; lent.0];
    for _ in 0..=LONGEST {
        store.fill(7);
        let mut output = vec![b'x'; lent.1];
        let place =
            |results: &mut [i32]| calls::place(job.as_bytes(), &mut store, &mut output, results);
        let left = arrays.lend(place).check(expected[0] as u32, expected);
        assert_eq!(left, Ok(()), "{job}");
        let (written, rest) = output.split_at(text.len());
        assert_eq!(written, text.as_bytes(), "{job}");
        assert!(rest.iter().all(|&byte| byte == b'x'), "{job}");
        let word = if searched { 0 } else { 7 };
        assert!(store.iter().all(|&left| left == word), "{job}");
    }
}

/// A refusal's number and line, and so many fields.
fn refused(number: i32, line: i32, fields: usize) -> Vec<i32> {
    let mut results = vec![0; 2 + fields];
    results[..2].copy_from_slice(&[number, line]);
    results
}

/// Score's fields and Place's, for a text that begins with `K,` and for another.
const SEVEN: [usize; 2] = [9, 8];
const SIX: [usize; 2] = [8, 7];

/// Score and Place refuse a job so, whatever else is wrong: the placement, the store, the output.
fn refuse(job: &str, number: i32, line: i32, [of_score, of_place]: [usize; 2]) {
    for placement in ["", "x", "2,0,0\n6,0,0\n"] {
        score_leaves(job, placement, &refused(number, line, of_score));
    }
    for lent in [Lent(0, 0), Lent(40, 18), ENOUGH] {
        place_leaves(job, lent, &refused(number, line, of_place), "");
    }
}

const HEADER: &str = "K,1,20,1,1,100,1,100,50,30\n";
const FIRST: &str = "C,0,2,1,1,4,3,3,2,2\n";
const SECOND: &str = "C,0,6,0,1,4,3,3,2,2\n";

#[test]
fn a_first_line_that_is_not_in_form() {
    let nine = "K,1,20,1,1,100,1,100,50\n";
    let eleven = "K,1,20,1,1,100,1,100,50,30,0\n";
    for job in ["K,", "K,\n", "K,1", "K,1\n", "K,,", nine, eleven] {
        refuse(job, 1, 1, SEVEN);
    }
    // The field count comes before ranges, and a field that is no number before its value.
    refuse("K,3,20,1,1,100,1,100,50\n", 1, 1, SEVEN);
    refuse("K,1,20,1,1,100,1,100,50,1001,0\n", 1, 1, SEVEN);
    refuse("K,1,20,1,1,100,1,100,50,10000\n", 1, 1, SEVEN);
    refuse("K,1,20,1,1,100,1,100,50,030\n", 1, 1, SEVEN);
    refuse("K,1,20,1,1,100,1,100,50,30", 1, 1, SEVEN);
    refuse("K,1,20,1,1,100,1,100,50,30\r\n", 1, 1, SEVEN);
}

/// What begins otherwise has six numbers, even if a `K` is all that is wrong with it.
#[test]
fn texts_that_do_not_begin_with_k_and_a_comma() {
    let ten = "J,1,20,1,1,100,1,100,50,30\n";
    for job in [
        "", "K", "K\n", "KJ,", "KK,", "k,", " K,", "JK,", "\nK,", ",K,", ten,
    ] {
        refuse(job, 1, 1, SIX);
    }
    for lead in ["KJ", "JK", "KK", "k", " K", ""] {
        let job = HEADER.replacen('K', lead, 1) + FIRST;
        refuse(&job, 1, 1, SIX);
        let job = format!("{lead},1,20,1,1,100,1,100,50\n{FIRST}");
        refuse(&job, 1, 1, SIX);
    }
    // A line led by `K` is none of a cell.
    let cell = format!("J,1,20,1,1,100,1,100,50\n{HEADER}");
    refuse(&cell, 1, 2, SIX);
    refuse(&HEADER.repeat(2), 1, 2, SEVEN);
}

#[test]
fn ranges_and_limits() {
    refuse("K,1,20,1,1,100,1,100,50,1001\n", 2, 1, SEVEN);
    refuse("K,1,20,1,1,100,1,100,50,9999\nx\n", 2, 1, SEVEN);
    refuse("K,1,20,1,1,1001,1,100,50,30\n", 2, 1, SEVEN);
    refuse("K,3,20,1,1,100,1,100,50,30\n", 2, 1, SEVEN);
    refuse(&format!("{HEADER}C,1,2,1,1,4,3,3,2,2\n"), 2, 2, SEVEN);
    refuse(&format!("{HEADER}{FIRST}C,0,6,0,1,4,3,3,2\n"), 1, 3, SEVEN);
    // In a cell line a row out of range comes before the field count, that before other ranges.
    refuse(&format!("{HEADER}C,3,6,2,1,4,3,3,2\n"), 2, 2, SEVEN);
    refuse(&format!("{HEADER}C,0,6,2,1,4,3,3,2\n"), 1, 2, SEVEN);
    refuse(&format!("{HEADER}C,0,6,2,1,4,3,3,2,2\n"), 2, 2, SEVEN);
    // A 65th cell that also falls, and a fall; a range comes before either.
    let many = HEADER.to_owned() + &SECOND.repeat(64);
    let out_of_range = FIRST.replacen("C,0,2,1,1", "C,0,2,2,1", 1);
    refuse(&format!("{many}{out_of_range}"), 2, 66, SEVEN);
    refuse(&format!("{many}{FIRST}"), 3, 66, SEVEN);
    let falls = format!("{HEADER}{SECOND}{out_of_range}");
    refuse(&falls, 2, 3, SEVEN);
    refuse(&format!("{HEADER}{SECOND}{FIRST}"), 4, 3, SEVEN);
    // All weights at their limit.
    let largest = "K,1,20,1,1,1000,1000,1000,1000,1000\n";
    score_leaves(largest, "", &[0; 11]);
    place_leaves(largest, Lent(STORE_WORDS, 0), &[0; 10], "");
}

#[test]
fn refusals_behind_the_jobs_own() {
    let job = format!("{HEADER}{FIRST}{SECOND}");
    for (placement, line) in [("", 1), ("2,0,0\n", 2), ("2,0,0\n6,0\n", 2)] {
        score_leaves(&job, placement, &refused(5, line, 9));
    }
    let surplus = "2,0,0\n6,0,0\n6,0,0\n";
    score_leaves(&job, surplus, &refused(5, 3, 9));
    // Too little store comes before too little output, and both before the search.
    let none = format!("K,1,3,0,0,1,1,1,1,1\n{}", "C,0,0,0,1,2,1,1,1,1\n".repeat(2));
    for job in [&job, &none] {
        for lent in [Lent(STORE_WORDS - 1, 17), Lent(STORE_WORDS - 1, 18)] {
            place_leaves(job, lent, &refused(6, 0, 8), "");
        }
        place_leaves(job, Lent(STORE_WORDS, 17), &refused(7, 0, 8), "");
    }
    place_leaves(&none, ENOUGH, &refused(8, 0, 8), "");
    let by_two = job.replacen("K,1,20,1,1", "K,1,20,1,2", 1);
    place_leaves(&by_two, ENOUGH, &refused(6, 0, 8), "");
}

/// Five cells of width 2: cells 1 and 2 abut with two steps, cell 3 stands two sites further with one,
/// cell 4 three sites with two, cell 5 four sites with heights that differ and count no more. So five
/// steps, of which three are filled. One site is shifted, by cell 5; cell 1 is mirrored, cell 5 is in
/// layout 1.
const ROW: &str = "\
C,0,0,1,1,2,1,1,1,1
C,0,2,0,1,2,2,2,2,2
C,0,6,0,1,2,2,3,4,4
C,0,11,0,1,2,5,5,1,1
C,0,16,0,2,2,9,9,9,9,2,9,9,9,9
";
const PLACED: &str = "0,0,1\n2,0,0\n6,0,0\n11,0,0\n17,1,0\n";

#[test]
fn the_numbers_of_a_row() {
    let led_by_k = |step: u32, filled: u32| format!("K,1,24,7,0,{step},11,13,17,{filled}\n{ROW}");
    // 11 for the shift, 13 for the mirroring, 17 for the layout are 41; one site over five cells
    // is 20 hundredths. Steps cost 2 × 7 + 3 × 5 = 29.
    score_leaves(
        &led_by_k(7, 5),
        PLACED,
        &[0, 0, 0, 0, 5, 1, 1, 1, 70, 20, 3],
    );
    // 2 × 1000, and 3 × 1000.
    let free = [0, 0, 0, 0, 5, 1, 1, 1, 2041, 20, 3];
    score_leaves(&led_by_k(1000, 0), PLACED, &free);
    let free = [0, 0, 0, 0, 5, 1, 1, 1, 3041, 20, 3];
    score_leaves(&led_by_k(0, 1000), PLACED, &free);
    // 5 × 7 = 35 with one weight for all.
    let one = &[0, 0, 0, 0, 5, 1, 1, 1, 76, 20, 3];
    score_leaves(&led_by_k(7, 7), PLACED, one);
    let led_by_j = format!("J,1,24,7,0,7,11,13,17\n{ROW}");
    score_leaves(&led_by_j, PLACED, &one[..10]);
    // Cell 5 one site behind cell 4: rule 5, and seven zeros.
    let broken = PLACED.replace("17,1,0", "14,1,0");
    let rule_5 = &[0, 0, 5, 4, 0, 0, 0, 0, 0, 0, 0];
    score_leaves(&led_by_k(7, 5), &broken, rule_5);
    score_leaves(&led_by_j, &broken, &rule_5[..10]);
}

/// Two tall cells with a single one between them in row 0, which it fills: cells 1 and 2 abut with one
/// step, cells 2 and 3 without any, and in row 1 cells 1 and 3 stand two sites apart with two.
#[test]
fn the_numbers_of_tall_cells() {
    let cells = "\
C,2,0,0,1,2,1,1,1,1,1,1,1,1
C,0,2,0,1,2,2,1,1,1
C,2,4,0,1,2,1,1,1,1,2,2,1,1
";
    let job = format!("K,2,6,0,0,7,1,1,1,5\n{cells}");
    let given = "0,0,0\n2,0,0\n4,0,0\n";
    // 7 + 2 × 5.
    score_leaves(&job, given, &[0, 0, 0, 0, 3, 0, 0, 0, 17, 0, 2]);
    let lent = Lent(STORE_WORDS, 27);
    let expected = [0, 0, 3, 0, 0, 0, 17, 0, 2, 18];
    place_leaves(&job, lent, &expected, given);
}

/// Cell 1 is fixed and takes sites 0 and 1; cell 2 is given one site behind it and may be shifted by
/// one: to abut, or to leave two sites. Either way the facing heights make so many steps, and the
/// shift costs 1.
fn place_two(cells: &str, steps: i32, step: i32, filled: i32) {
    let job = format!("K,2,8,1,0,{step},1,1,1,{filled}\n{cells}");
    let abut = 1 + steps * step;
    let apart = 1 + steps * filled;
    let (cost, drift, filled_steps, text) = match abut < apart {
        true => (abut, -50, 0, "0,0,0\n2,0,0\n"),
        false => (apart, 50, steps, "0,0,0\n4,0,0\n"),
    };
    let expected = [0, 0, steps, 1, 0, 0, cost, drift, filled_steps, 12];
    place_leaves(&job, ENOUGH, &expected, text);
}

/// Steps at gap 0 free and filled ones at 1,000, the reverse, and weights between.
#[test]
fn the_cheapest_placement_turns_on_the_weight_of_filled_steps() {
    let single = "F,0,0,0,1,2,1,1,1,1\nC,0,3,0,1,2,2,2,2,2\n";
    let tall = "F,2,0,0,1,2,1,1,1,1,1,1,1,1\nC,2,3,0,1,2,2,2,2,2,1,2,2,2\n";
    for (step, filled) in [(1000, 0), (0, 1000), (3, 5), (5, 3), (999, 1000), (1, 0)] {
        place_two(single, 2, step, filled);
        place_two(tall, 3, step, filled);
    }
    // The first two in figures: one site shifted is all that is paid, on either side.
    let job = |weights: &str| format!("K,1,8,1,0,{weights}\n{single}");
    let apart = [0, 0, 2, 1, 0, 0, 1, 50, 2, 12];
    place_leaves(&job("1000,1,1,1,0"), ENOUGH, &apart, "0,0,0\n4,0,0\n");
    let abut = [0, 0, 2, 1, 0, 0, 1, -50, 0, 12];
    place_leaves(&job("0,1,1,1,1000"), ENOUGH, &abut, "0,0,0\n2,0,0\n");
}

/// Cell 2 is given three sites behind cell 1, with two filled steps; one site further there are none,
/// for a shift that costs 3. Staying costs 2 × filled, whatever step is.
#[test]
fn filled_steps_are_paid_by_their_own_weight_at_gap_3() {
    let cells = "F,0,0,0,1,2,1,1,1,1\nC,0,5,0,1,2,2,2,2,2\n";
    for step in [0, 1, 1000] {
        let job = |filled: u32| format!("K,1,10,1,0,{step},3,1,1,{filled}\n{cells}");
        let stays = [0, 0, 2, 0, 0, 0, 2, 0, 2, 12];
        place_leaves(&job(1), ENOUGH, &stays, "0,0,0\n5,0,0\n");
        let leaves = [0, 0, 0, 1, 0, 0, 3, 50, 0, 12];
        place_leaves(&job(2), ENOUGH, &leaves, "0,0,0\n6,0,0\n");
    }
}
