//! Filled steps, which are those at gaps 2 and 3, with a weight of their own: jobs whose first line is
//! led by `K`, and what their results have behind drift.

use importer::{calls, fault_line, has_filled_steps, place, read, refine, score, sentence};
use importer::{Numbers, Refined, Refiner, Refused, Verdict};
use importer::{OUTPUT_BYTES, STORE_WORDS};

/// With D 1 and in file order each cell has one site: 1 would leave a single site before cell 1, 5
/// and 9 one before cells 2 and 3, 16 one behind cell 4, and cell 5 reaches past the row by one. Cell
/// 3 alone could be at 11 too, and would be shifted for nothing.
///
/// Cell 1 faces 1 1 of cell 2 with 2 3, or mirrored with 1 3: a step less, for 3 in place of 7. Cell
/// 5 faces 1 1 of cell 4 with 2 2, or mirrored with 1 2: the same. Cells 2 and 3 stand two sites
/// apart and cells 3 and 4 three, with two steps each.
const CELLS: &str = "\
C,0,0,1,1,4,1,3,2,3
C,0,4,0,1,4,1,1,4,4
C,0,10,0,1,4,5,6,7,8
C,0,17,0,1,3,9,10,1,1
C,0,21,1,1,4,2,2,1,2
";
const PLACED: &str = "0,0,1\n4,0,0\n10,0,0\n17,0,0\n20,0,1\n";

/// The job with a weight of 7 for steps, and for filled ones this.
fn job(filled: u32) -> Vec<u8> {
    format!("K,1,24,1,0,7,11,3,17,{filled}\n{CELLS}").into()
}

/// What is answered of it: two steps at gap 0, four filled ones, a shift of one site to the left and
/// two cells mirrored.
fn answer(filled: u32) -> Refined {
    let numbers = Numbers {
        steps: 6,
        shifted: 1,
        mirrored: 2,
        changed: 0,
        cost: 2 * 7 + 4 * filled + 11 + 2 * 3,
        drift: -20,
        filled: Some(4),
    };
    Refined {
        numbers,
        text: PLACED.into(),
    }
}

#[test]
fn each_way_to_have_a_job_placed_tells_the_filled_steps() {
    let mut refiner = Refiner::new();
    for filled in [5, 0, 1, 7, 1000] {
        let (job, answer) = (job(filled), answer(filled));
        assert_eq!(refine(&job), Ok(answer.clone()), "{filled}");
        let placed = refiner.place(&job).map(|placed| placed.to_refined());
        assert_eq!(placed, Ok(answer.clone()), "{filled}");
        let (mut store, mut output) = (vec![0; STORE_WORDS], [0; OUTPUT_BYTES]);
        let placed = place(&job, &mut store, &mut output).expect("a placement exists");
        assert_eq!(placed.numbers, answer.numbers, "{filled}");
        assert_eq!(&output[..placed.text_length], answer.text, "{filled}");
    }
}

#[test]
fn a_placement_is_scored_by_both_weights() {
    let scored = score(&job(5), PLACED.as_bytes());
    assert_eq!(scored, Ok(Verdict::Legal(answer(5).numbers)));
    // As given but for cell 5, with both cells unmirrored: a step more at each end of the row.
    let scored = score(&job(5), b"0,0,0\n4,0,0\n10,0,0\n17,0,0\n20,0,0\n");
    let numbers = Numbers {
        steps: 8,
        shifted: 1,
        mirrored: 0,
        changed: 0,
        cost: 4 * 7 + 4 * 5 + 11,
        drift: -20,
        filled: Some(4),
    };
    assert_eq!(scored, Ok(Verdict::Legal(numbers)));
}

/// "A `J` header means both are equal."
#[test]
fn led_by_j_both_weigh_the_same() {
    let plain = format!("J,1,24,1,0,7,11,3,17\n{CELLS}");
    let Refined { numbers, text } = refine(plain.as_bytes()).expect("a placement exists");
    let same = answer(7);
    assert_eq!(text, same.text);
    let filled = None;
    assert_eq!(
        numbers,
        Numbers {
            filled,
            ..same.numbers
        }
    );
    assert_eq!(score(plain.as_bytes(), &text), Ok(Verdict::Legal(numbers)));
    assert_eq!(numbers.fields(), "59,6,1,2,0,-20");
    assert_eq!(same.numbers.fields(), "59,6,1,2,0,-20,4");
}

#[test]
fn the_filled_steps_are_told_behind_the_others() {
    let told =
        "cost 51, steps 6, sites shifted 1, mirrored 2, changed 0, drift -20, filled steps 4";
    assert_eq!(answer(5).numbers.to_string(), told);
    assert_eq!(answer(5).numbers.fields(), "51,6,1,2,0,-20,4");
    let verdict = Verdict::Legal(answer(5).numbers);
    assert_eq!(verdict.to_string(), format!("legal: {told}"));
}

/// Two cells of two sites whose facing heights both differ, at each gap, with weights of 100 and 30.
#[test]
fn by_gap() {
    let job = b"K,1,20,7,0,100,0,0,0,30\nC,0,0,0,1,2,1,1,2,2\nC,0,6,0,1,2,3,3,1,1\n";
    let by_gap = [(0, 2, 200, 0), (2, 2, 60, 2), (3, 2, 60, 2), (4, 0, 0, 0)];
    for (gap, steps, cost, filled) in by_gap {
        let placement = format!("0,0,0\n{},0,0\n", 2 + gap);
        let numbers = score(job, placement.as_bytes()).map(Verdict::legal);
        let numbers = numbers.map(|legal| legal.expect("no rule is broken"));
        let told = numbers.map(|found| (found.steps, found.cost, found.filled));
        assert_eq!(told, Ok((steps, cost, Some(filled))), "gap {gap}");
    }
    let said = sentence(job, b"0,0,0\n3,0,0\n");
    assert_eq!(said.as_deref(), Ok("one-site gap: cell 1, cell 2."));
}

/// A tall cell has a step at gap 0 in row 0, and two filled ones in row 1.
#[test]
fn in_both_rows() {
    let job = b"K,2,9,0,0,100,0,0,0,1\n\
                C,0,0,0,1,4,1,1,2,2\n\
                C,1,0,0,1,2,1,1,2,2\n\
                C,2,4,0,1,5,2,3,1,1,3,3,1,1\n";
    let numbers = refine(job).expect("a placement exists").numbers;
    assert_eq!(numbers.fields(), "102,3,0,0,0,0,2");
}

/// A cheaper gap is sought: cell 2 goes where its steps are filled ones, or where they are none.
#[test]
fn the_least_of_the_new_cost_is_found() {
    let cells = "C,0,0,0,1,4,3,3,2,2\nC,0,4,0,1,4,3,3,2,2\n";
    let placed = |lead: &str, filled: &str| {
        let job = format!("{lead},1,12,4,0,10,3,1,1{filled}\n{cells}");
        let Refined { numbers, text } = refine(job.as_bytes()).expect("a placement exists");
        (numbers.fields(), String::from_utf8(text).expect("a text"))
    };
    let at = |site: u32| format!("0,0,0\n{site},0,0\n");
    // Where the cells abut two steps cost 20, two sites apart 20 and the shift, and four sites apart
    // there is the shift alone, 12. Three sites apart one site is left at the row's end.
    assert_eq!(placed("J", ""), ("12,0,4,0,0,200".into(), at(8)));
    assert_eq!(placed("K", ",10"), ("12,0,4,0,0,200,0".into(), at(8)));
    // Two sites apart they cost 2 and the shift, 6.
    assert_eq!(placed("K", ",1"), ("8,2,2,0,0,100,2".into(), at(6)));
    // Weightless steps at gap 0 are the cheapest.
    let job = format!("K,1,12,4,0,0,3,1,1,1000\n{cells}");
    let numbers = refine(job.as_bytes()).expect("a placement exists").numbers;
    assert_eq!(numbers.fields(), "0,2,0,0,0,0,0");
}

/// What no operation leaves in its results.
const PAINT: i32 = -777;

/// Lends a call arrays of every length up to 14, and checks that it writes these entries as far as
/// each reaches, and no others.
fn check_entries(entries: &[i32], call: impl Fn(&mut [i32]) -> u32) {
    for length in 0..=14 {
        let mut results = vec![PAINT; length];
        assert_eq!(call(&mut results), entries[0] as u32);
        let mut expected = entries.to_vec();
        expected.resize(14, PAINT);
        assert_eq!(results, expected[..length], "{length}");
    }
}

fn check_score(job: &[u8], placement: &[u8], entries: &[i32]) {
    check_entries(entries, |results| calls::score(job, placement, results));
}

fn check_place(job: &[u8], entries: &[i32]) {
    let store = || vec![0; STORE_WORDS];
    let call = |results: &mut [i32]| calls::place(job, &mut store(), &mut [0; 99], results);
    check_entries(entries, call);
}

#[test]
fn results_are_written_as_far_as_they_reach() {
    let scored = [0, 0, 0, 0, 6, 1, 2, 0, 51, -20, 4];
    check_score(&job(5), PLACED.as_bytes(), &scored);
    check_place(&job(5), &[0, 0, 6, 1, 2, 0, 51, -20, 4, 33]);
    // A broken rule leaves no number, and a refusal nothing but number and line.
    let broken = PLACED.replace("17,", "18,");
    check_score(
        &job(5),
        broken.as_bytes(),
        &[0, 0, 4, 4, 0, 0, 0, 0, 0, 0, 0],
    );
    check_score(&job(5), b"0,0\n", &[5, 1, 0, 0, 0, 0, 0, 0, 0, 0, 0]);
    check_entries(&[0, 0, 5], |results| calls::read(&job(5), results));
}

/// First lines led by `K`, and their refusals.
const REFUSED: [(&str, i32); 8] = [
    ("K,", 1),
    ("K,\n", 1),
    ("K,1,24,1,0,7,11,3,17\n", 1),
    ("K,1,24,1,0,7,11,3,17,5,5\n", 1),
    ("K,1,24,1,0,7,11,3,17,05\n", 1),
    ("K,1,24,1,0,7,11,3,17,1001\n", 2),
    ("K,1,24,1,0,7,11,3,1001,5\n", 2),
    ("K,3,24,1,0,7,11,3,17,1001\n", 2),
];

#[test]
fn a_refused_text_that_begins_with_k_has_the_field_more() {
    for (text, number) in REFUSED {
        let job = text.as_bytes();
        assert!(has_filled_steps(job), "{text}");
        let line = 1;
        let refused = Refused {
            number: number as u32,
            line,
        };
        assert_eq!(read(job), Err(refused), "{text}");
        assert_eq!(score(job, b""), Err(refused), "{text}");
        assert_eq!(refine(job), Err(refused), "{text}");
        assert_eq!(fault_line(job, b""), job, "{text}");
        check_score(job, b"", &[number, 1, 0, 0, 0, 0, 0, 0, 0, 0, 0]);
        check_place(job, &[number, 1, 0, 0, 0, 0, 0, 0, 0, 0]);
    }
    // Two cells of three sites in a row of five.
    let cell = "C,0,0,0,1,3,1,1,1,1\n";
    let tight = format!("K,1,5,7,1,1,1,1,1,1\n{cell}{cell}");
    check_place(tight.as_bytes(), &[8, 0, 0, 0, 0, 0, 0, 0, 0, 0]);
}

#[test]
fn a_text_that_begins_otherwise_has_not() {
    for text in [
        "",
        "K",
        "K\n",
        "k,1,24,1,0,7,11,3,17,5\n",
        "KJ,1,24,1,0,7,11,3,17,5\n",
        "KK,1,24,1,0,7,11,3,17,5\n",
        " K,1,24,1,0,7,11,3,17,5\n",
        "\nK,1,24,1,0,7,11,3,17,5\n",
        "J,1,24,1,0,7,11,3,17,5\n",
    ] {
        let job = text.as_bytes();
        assert!(!has_filled_steps(job), "{text}");
        check_score(job, b"", &[1, 1, 0, 0, 0, 0, 0, 0, 0, 0]);
        check_place(job, &[1, 1, 0, 0, 0, 0, 0, 0, 0]);
    }
}
