//! Jobs led by `K`: their filled steps are printed at the end of the line of numbers.

use crate::{check_refused_job, file, refine, score, told};

/// Worked in `examples.rs`.
const FILLED: &str = include_str!("../../../examples/filled.job");
const NUMBERS: &str = "162,3,2,0,0,67,2";
const PLACEMENT: &str = "0,0,0\n6,0,0\n10,0,0\n";

/// The rows as given: cells 1 and 2 abut with two steps, cells 2 and 3 have a filled one.
const GIVEN: &str = "0,0,0\n4,0,0\n10,0,0\n";

/// The same job led by `J`.
fn led_by_j() -> String {
    let job = FILLED.replacen('K', "J", 1).replacen(",30\n", "\n", 1);
    assert!(job.starts_with("J,1,14,2,0,100,1,100,50\nC"), "{job}");
    job
}

#[test]
fn refine_prints_the_filled_steps() {
    let said = told(&refine(&[], FILLED.as_bytes()));
    let answer = format!("{NUMBERS}\n{PLACEMENT}");
    assert_eq!(said, (answer, String::new(), Some(0)));
    let (alone, ..) = told(&refine(&["-p"], FILLED.as_bytes()));
    assert_eq!(alone, PLACEMENT);
    // A job without cells has none.
    let (output, ..) = told(&refine(&[], b"K,2,9,7,1,1000,1000,1000,1000,1000\n"));
    assert_eq!(output, "0,0,0,0,0,0,0\n");
}

#[test]
fn score_prints_the_filled_steps() {
    let said = score("filled", FILLED, PLACEMENT);
    assert_eq!(said, (format!("legal,{NUMBERS}\n"), String::new(), Some(0)));
    let (given, ..) = score("filled_given", FILLED, GIVEN);
    assert_eq!(given, "legal,230,3,0,0,0,0,1\n");
    let (broken, ..) = score("filled_broken", FILLED, "0,0,0\n5,0,0\n10,0,0\n");
    assert_eq!(broken, "broken,5,1\n");
}

/// Both weigh 100: two sites between cells 1 and 2 save nothing.
#[test]
fn led_by_j_a_job_has_six_numbers() {
    let (output, ..) = told(&refine(&[], led_by_j().as_bytes()));
    assert_eq!(output, format!("300,3,0,0,0,0\n{GIVEN}"));
    let (verdict, ..) = score("filled_j", &led_by_j(), PLACEMENT);
    assert_eq!(verdict, "legal,302,3,2,0,0,67\n");
}

#[test]
fn a_job_and_its_placement_go_through_a_pipe() {
    let (placement, ..) = told(&refine(&["-p"], FILLED.as_bytes()));
    let job = file("filled_pipe.job", FILLED);
    let (verdict, ..) = told(&refine(&["score", &job, "-"], placement.as_bytes()));
    assert_eq!(verdict, format!("legal,{NUMBERS}\n"));
}

#[test]
fn a_refused_first_line_is_told_in_its_own_form() {
    let check = |line: &str, answer: &str, words: &str| {
        let shown = format!("{line}\n<stdin>:1: {words}\n");
        check_refused_job(format!("{line}\n"), answer, &shown);
    };
    let ten = "the first line has 10: K,rows,sites,D,R,step,shift,mirror,swap,filled";
    let refused = "refused,1,1\n";
    check("K,1,20,1,1,1,1,1,1", refused, &format!("9 fields, {ten}"));
    let eleven = format!("11 fields, {ten}");
    check("K,1,20,1,1,1,1,1,1,1,1", refused, &eleven);
    check("K", refused, &format!("1 field, {ten}"));
    let nine = "10 fields, the first line has 9: J,rows,sites,D,R,step,shift,mirror,swap";
    let nine = format!("{nine}; with filled behind them it begins with K");
    check("J,1,20,1,1,1,1,1,1,1", refused, &nine);
    let lead = "field 1 (lead) is \"KJ\"; the first line begins with J or K";
    check("KJ,1,20,1,1,1,1,1,1,1", refused, lead);
    let range = "field 10 (filled) is 1001; allowed 0 to 1000";
    check("K,1,20,1,1,1,1,1,1,1001", "refused,2,1\n", range);
}
