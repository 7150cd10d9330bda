//! The edges of the scope that concern Place, one by one, with its buffers.

use importer::{place, refine, score, Refused, Verdict, STORE_WORDS};

const WORKED: &[u8] = include_bytes!("../../../examples/worked.job");

/// The worked example with R 2, which lets its two cells do no more than R 1.
const WORKED_BY_TWO: &[u8] = b"\
J,1,20,1,2,100,1,100,50
C,0,2,1,1,4,3,3,2,2
C,0,6,0,1,4,3,3,2,2
";

/// The cost of a placed job, or the refusal's number.
fn cost(job: &str) -> Result<u32, u32> {
    match refine(job.as_bytes()) {
        Ok(refined) => Ok(refined.numbers.cost),
        Err(refused) => Err(refused.number),
    }
}

#[test]
fn the_worked_example() {
    let refined = refine(WORKED).expect("the worked example has a placement");
    assert_eq!(refined.text, b"2,0,1\n6,0,0\n");
    let numbers = refined.numbers;
    assert_eq!((numbers.cost, numbers.steps, numbers.shifted), (100, 0, 0));
    assert_eq!(
        (numbers.mirrored, numbers.changed, numbers.drift),
        (1, 0, 0)
    );
}

#[test]
fn costs() {
    let two = "C,0,0,0,1,2,1,1,1,1\nC,0,3,0,1,2,1,1,1,1\n";
    let wide = "C,0,0,0,1,3,1,1,1,1\n";
    let edges = [
        ("no cells", "J,2,1,7,1,1,1,1,1\n".into(), Ok(0)),
        ("gap 1, D 0", format!("J,1,5,0,0,0,1,0,0\n{two}"), Err(8)),
        ("gap 1, D 1", format!("J,1,5,1,0,0,1,0,0\n{two}"), Err(8)),
        (
            "two of width 3 on 5 sites",
            format!("J,1,5,7,1,0,1,0,0\n{wide}{wide}"),
            Err(8),
        ),
        (
            "a cell wider than the row",
            format!("J,1,2,7,1,0,1,0,0\n{wide}"),
            Err(8),
        ),
        (
            "a bad line",
            format!("J,1,2,7,1,0,1,0,0\n{wide}x\n"),
            Err(1),
        ),
        (
            "a cell given past the row",
            "J,1,5,7,1,0,2,0,0\nC,0,9,0,1,3,1,1,1,1\n".into(),
            Ok(14),
        ),
        (
            "one given too far past it",
            "J,1,5,7,1,0,2,0,0\nC,0,10,0,1,3,1,1,1,1\n".into(),
            Err(8),
        ),
    ];
    for (edge, job, expected) in edges {
        assert_eq!(cost(&job), expected, "{edge}");
    }
}

/// A6, by hand. Three cells of width 1 fill a row of three sites. Only from cell 2 to 3 and from 3 to
/// 1 heights are equal; any other neighbours have two steps, which cost 200. In file order that is
/// 200. In the order 2, 3, 1 there are none, and four sites are shifted; cell 1 moves by two places.
#[test]
fn reordering_by_two() {
    let singles = "C,0,1,0,1,1,3,3,4,4\nC,0,2,0,1,1,4,4,1,1\n";
    let first = ["C,0,0,0,1,1,1,1,2,2\n", "C,2,0,0,1,1,1,1,2,2,1,1,2,2\n"];
    for first in first {
        let job = |reordering: u32| format!("J,2,3,2,{reordering},100,1,0,0\n{first}{singles}");
        let mut store = vec![7; 4_194_304];
        for (reordering, cost, text) in [
            (0, 200, "0,0,0\n1,0,0\n2,0,0\n"),
            (1, 200, "0,0,0\n1,0,0\n2,0,0\n"),
            (2, 4, "2,0,0\n0,0,0\n1,0,0\n"),
        ] {
            let mut output = [0; 27];
            let placed = place(job(reordering).as_bytes(), &mut store, &mut output);
            let placed = placed.map(|placed| (placed.numbers.cost, placed.text_length));
            assert_eq!(placed, Ok((cost, text.len())), "{}", job(reordering));
            assert_eq!(&output[..text.len()], text.as_bytes());
        }
    }
    // Two tall cells keep their order with any R, even at the cost of two steps in each row.
    let tall = "C,2,0,0,1,1,1,1,2,2,1,1,2,2\nC,2,0,0,1,1,3,3,1,1,3,3,1,1\n";
    let two = format!("J,2,2,1,2,100,1,0,0\n{tall}");
    let mut output = [0; 18];
    let placed = place(two.as_bytes(), &mut vec![7; 4_194_304], &mut output);
    assert_eq!(placed.map(|placed| placed.numbers.cost), Ok(401));
    assert_eq!(&output[..12], b"0,0,0\n1,0,0\n");
}

/// Eight cells of width 2 that fill a row of 16 sites, with D 1 and R 0: each has one place, and the
/// shifts are those from the given sites to these places.
fn full_row(header: &str, shifts: [i32; 8]) -> String {
    let cell = |(place, shift): (i32, i32)| format!("C,0,{},0,1,2,1,1,1,1\n", place - shift);
    let places = (0..).step_by(2);
    let cells: String = places.zip(shifts).map(cell).collect();
    format!("{header}{cells}")
}

/// A9, by hand: one site over 8 cells is 12.5 hundredths.
#[test]
fn drift_rounds_halves_to_even() {
    let text = "0,0,0\n2,0,0\n4,0,0\n6,0,0\n8,0,0\n10,0,0\n12,0,0\n14,0,0\n";
    let edges = [
        ([0, 0, 0, 0, 0, 0, 0, 0], 0, 0),
        ([0, 0, 0, 0, 0, 0, 0, -1], 1, -12),
        ([0, 1, 0, 0, 0, 0, 0, 0], 1, 12),
        ([-1, 0, 0, 1, 0, -1, 0, 0], 3, -12),
        ([0, 1, -1, 0, 1, 0, 0, 0], 3, 12),
        ([0, -1, 0, 0, -1, 0, 0, 0], 2, -25),
        ([-1, 0, -1, 0, 0, 0, -1, 0], 3, -38),
        ([0, 1, 0, 0, 1, 0, 0, 1], 3, 38),
        ([-1, -1, -1, -1, -1, 0, 0, 0], 5, -62),
        ([0, 1, 1, 1, 0, 1, 1, 0], 5, 62),
        ([-1, -1, -1, -1, -1, -1, 0, -1], 7, -88),
        ([0, 1, 1, 1, 1, 1, 1, 1], 7, 88),
    ];
    for header in ["J,1,16,1,0,1,1,1,1\n", "K,1,16,1,0,1,1,1,1,1\n"] {
        for (shifts, cost, drift) in edges {
            let job = full_row(header, shifts);
            let refined = refine(job.as_bytes()).expect("each cell has its place");
            assert_eq!(refined.text, text.as_bytes(), "{job}");
            let numbers = refined.numbers;
            assert_eq!((numbers.cost, numbers.drift), (cost, drift), "{job}");
            let scored = score(job.as_bytes(), text.as_bytes());
            assert_eq!(scored, Ok(Verdict::Legal(numbers)), "{job}");
        }
    }
}

/// Rule 8 (A1): by hand.
#[test]
fn row_ends() {
    let two = "C,0,0,0,1,2,1,1,1,1\nC,0,3,0,1,2,1,1,1,1\n";
    let sites = |sites: u32| format!("J,1,{sites},1,0,0,1,0,0\n{two}");
    // On 4 sites the cells just fit. On 5, sites 0 and 2 leave one at the end, 1 and 3 one at the
    // start. From 6 on, 0 and 2 leave two or more.
    for (count, expected) in [(4, Ok(1)), (5, Err(8)), (6, Ok(1)), (7, Ok(1)), (8, Ok(1))] {
        assert_eq!(cost(&sites(count)), expected, "{count} sites");
    }
    // A cell of width 2 alone on 5 sites: at 1 one site is left before it, at 2 one behind it.
    let alone = |rows: u32, row: u32, given: u32, limit: u32| {
        format!("J,{rows},5,{limit},0,0,1,0,0\nC,{row},{given},0,1,2,1,1,1,1\n")
    };
    let given = [
        (0, Ok(0), Ok(0)),
        (1, Err(8), Ok(1)),
        (2, Err(8), Ok(1)),
        (3, Ok(0), Ok(0)),
    ];
    for (given, kept, moved) in given {
        for (rows, row) in [(1, 0), (2, 0), (2, 1)] {
            assert_eq!(cost(&alone(rows, row, given, 0)), kept, "{row} {given}");
            assert_eq!(cost(&alone(rows, row, given, 1)), moved, "{row} {given}");
        }
    }
    // Width 3 at site 1 breaks it at both ends; at 0 and at 2 two sites are left.
    let wide = |limit: u32| format!("J,1,5,{limit},0,0,1,0,0\nC,0,1,0,1,3,1,1,1,1\n");
    assert_eq!((cost(&wide(0)), cost(&wide(1))), (Err(8), Ok(1)));
    // An empty row is free, even one of one site.
    assert_eq!(cost("J,2,1,0,0,0,1,0,0\nC,1,0,0,1,1,1,1,1,1\n"), Ok(0));
}

/// A tall cell that is the first, or the last, in one of its rows only.
#[test]
fn row_ends_of_a_tall_cell() {
    // Given, the single cell stands at 0 and the tall one at 1, so that it is the other row's first
    // behind one empty site. With D 1 it may stand at 2, but then the single cell at 0 has a gap of
    // 1, and at 1 one empty site before it. With D 2 it stands at 3, two sites behind the other.
    let first = |row: u32, limit: u32| {
        let single = format!("C,{row},0,0,1,1,1,1,1,1\n");
        format!("J,2,20,{limit},0,0,1,0,0\n{single}C,2,1,0,1,4,1,1,1,1,1,1,1,1\n")
    };
    // The same from the right: the tall one ends at 19 of 20 sites.
    let last = |row: u32, limit: u32| {
        let single = format!("C,{row},19,0,1,1,1,1,1,1\n");
        format!("J,2,20,{limit},0,0,1,0,0\nC,2,15,0,1,4,1,1,1,1,1,1,1,1\n{single}")
    };
    for row in [0, 1] {
        for (limit, expected) in [(0, Err(8)), (1, Err(8)), (2, Ok(2)), (3, Ok(2))] {
            assert_eq!(cost(&first(row, limit)), expected, "{row} {limit}");
            assert_eq!(cost(&last(row, limit)), expected, "{row} {limit}");
        }
    }
}

/// A job with R 1 and one with R 2, and how many words of store each needs.
const NEEDS: [(&[u8], usize); 2] = [(WORKED, 1_048_576), (WORKED_BY_TWO, 4_194_304)];

/// What a call left: the refusal, and whether store and output are as they were.
fn left(job: &[u8], words: usize, bytes: usize) -> (Option<Refused>, bool, bool) {
    let mut store = vec![7; words];
    let mut output = vec![b'x'; bytes];
    let refused = place(job, &mut store, &mut output).err();
    let store_kept = store.iter().all(|&word| word == 7);
    (refused, store_kept, output.iter().all(|&byte| byte == b'x'))
}

#[test]
fn buffers_that_are_too_small() {
    let refused = |number, line| Some(Refused { number, line });
    for (job, words) in NEEDS {
        assert_eq!(left(job, words - 1, 18), (refused(6, 0), true, true));
        assert_eq!(left(job, 0, 0), (refused(6, 0), true, true));
        assert_eq!(left(job, words, 17), (refused(7, 0), true, true));
        assert_eq!(left(job, words, 0), (refused(7, 0), true, true));
    }
    assert_eq!(
        left(WORKED_BY_TWO, 1_048_576, 0),
        (refused(6, 0), true, true)
    );
    assert_eq!(left(b"J\n", 0, 0), (refused(1, 1), true, true));
    assert_eq!(left(b"", 4_194_304, 18), (refused(1, 1), true, true));
}

#[test]
fn buffers_that_just_suffice() {
    for (job, words) in NEEDS {
        let mut store = vec![7; words];
        let mut output = [b'x'; 18];
        let placed = place(job, &mut store, &mut output);
        assert_eq!(placed.map(|placed| placed.text_length), Ok(12));
        assert_eq!(&output, b"2,0,1\n6,0,0\nxxxxxx");
        assert!(store.iter().all(|&word| word == 0));
    }
}

#[test]
fn a_larger_store_is_all_zero_too() {
    let none = |reordering: u32| format!("J,1,1,0,{reordering},0,0,0,0\nC,0,0,0,1,2,1,1,1,1\n");
    for ((job, words), none) in NEEDS.into_iter().zip([none(1), none(2)]) {
        for spare in [1, 1000] {
            let mut store = vec![7; words + spare];
            let mut output = [b'x'; 30];
            let refused = place(none.as_bytes(), &mut store, &mut output).err();
            assert_eq!(refused, Some(Refused { number: 8, line: 0 }));
            assert!(store.iter().all(|&word| word == 0));
            assert_eq!(output, [b'x'; 30]);
            store.fill(7);
            assert!(place(job, &mut store, &mut output).is_ok());
            assert!(store.iter().all(|&word| word == 0));
        }
    }
}

#[test]
fn no_cells_need_no_output() {
    let mut store = vec![7; STORE_WORDS];
    let placed = place(b"J,1,1,0,0,0,0,0,0\n", &mut store, &mut []);
    assert_eq!(placed.map(|placed| placed.text_length), Ok(0));
    assert!(store.iter().all(|&word| word == 0));
}
