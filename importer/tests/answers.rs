//! The safe calls: each field of an answer and each part of a refusal is where it belongs.

use importer::{farm_job, load, place, read, reasons, refine, score, sentence};
use importer::{Broken, Numbers, Refused, Sentence, Verdict};
use importer::{LOAD_BYTES, OUTPUT_BYTES, REASONS_BYTES, STORE_WORDS};

/// Five cells whose placement below has six different numbers.
const JOB: &[u8] = b"J,1,60,7,1,7,11,13,17
C,0,10,1,1,4,1,1,2,2
C,0,14,1,1,4,1,1,2,2
C,0,30,0,2,4,1,1,2,2,4,1,1,5,5
C,0,36,1,1,4,6,7,8,9
C,0,40,0,1,4,6,8,1,1
";

/// Cells 3 and 4 abut with two steps, 4 and 5 stand two sites apart with one.
const PLACEMENT: &[u8] = b"9,0,1
13,0,0
30,1,0
34,0,1
40,0,0
";

const NUMBERS: Numbers = Numbers {
    steps: 3,
    shifted: 4,
    mirrored: 2,
    changed: 1,
    cost: 7 * 3 + 11 * 4 + 13 * 2 + 17,
    drift: -80,
    filled: None,
};

#[test]
fn read_answers_the_cells() {
    assert_eq!(read(JOB).map(|answer| answer.cells), Ok(5));
}

#[test]
fn score_answers_each_number_in_its_place() {
    assert_eq!(score(JOB, PLACEMENT), Ok(Verdict::Legal(NUMBERS)));
}

/// Cell 4 stands one empty site behind cell 3, and cell 5 one behind cell 4.
const BROKEN: &[u8] = b"9,0,1\n13,0,0\n30,1,0\n35,0,1\n40,0,0\n";

#[test]
fn score_answers_the_rule_and_its_cell() {
    let broken = Broken { rule: 5, cell: 3 };
    assert_eq!(score(JOB, BROKEN), Ok(Verdict::Broken(broken)));
}

#[test]
fn reasons_answers_the_length_of_its_sentence() {
    let mut output = [b'x'; REASONS_BYTES + 1];
    let said = reasons(JOB, BROKEN, &mut output).expect("both texts are accepted");
    let (text, rest) = output.split_at(said.text_length);
    assert_eq!(text, b"one-site gap: cell 3, cell 4, cell 5.");
    assert!(rest.iter().all(|&byte| byte == b'x'));
    let said = sentence(JOB, BROKEN).expect("both texts are accepted");
    assert_eq!(said.as_bytes(), text);
    let cells = vec![3, 4, 5];
    assert_eq!(said.parse(), Ok(Sentence::Broken { rule: 5, cells }));
    assert_eq!(sentence(JOB, PLACEMENT).as_deref(), Ok("legal."));
}

#[test]
fn place_answers_the_numbers_of_its_text_and_its_length() {
    let mut store = vec![0; STORE_WORDS];
    let mut output = [0; OUTPUT_BYTES];
    let placed = place(JOB, &mut store, &mut output).expect("the job has a legal placement");
    let text = &output[..placed.text_length];
    assert_eq!(
        output[placed.text_length..],
        [0; OUTPUT_BYTES][text.len()..]
    );
    assert_eq!(score(JOB, text), Ok(Verdict::Legal(placed.numbers)));
    assert!(placed.numbers.cost <= NUMBERS.cost);
}

#[test]
fn refine_answers_the_only_placement_of_a_job() {
    // The cell reaches past the row by one site.
    let refined = refine(b"J,1,20,1,1,100,7,100,50\nC,0,17,1,1,4,3,3,2,2\n");
    let refined = refined.expect("the job has a legal placement");
    let expected = Numbers {
        steps: 0,
        shifted: 1,
        mirrored: 0,
        changed: 0,
        cost: 7,
        drift: -100,
        filled: None,
    };
    assert_eq!(refined.numbers, expected);
    assert_eq!(refined.text, b"16,0,0\n");
}

/// Two cells, worked out by a program of its own.
const LOADED: &[u8] = b"J,2,1024,7,1,100,1,100,50
C,1,5,0,2,9,3,2,4,1,13,1,1,2,1
C,1,10,0,1,12,4,2,3,3
";

#[test]
fn load_answers_the_length_of_its_text() {
    let mut output = [b'x'; LOAD_BYTES + 1];
    let loaded = load(7, 2, &mut output).expect("two cells are not too many");
    let (text, rest) = output.split_at(loaded.text_length);
    assert_eq!(text, LOADED);
    assert!(rest.iter().all(|&byte| byte == b'x'));
    assert_eq!(farm_job(7, 2).as_deref(), Ok(LOADED));
}

#[test]
fn each_call_tells_number_and_line_of_a_refusal() {
    let bad = b"J,1,60,7,1,7,11,13,17\nC,0,10,1,1,4,1,1,2,2\nC,0,9,1,1,4,1,1,2,2\n";
    let falls = Refused { number: 4, line: 3 };
    assert_eq!(read(bad), Err(falls));
    assert_eq!(score(bad, PLACEMENT), Err(falls));
    assert_eq!(place(bad, &mut [], &mut []), Err(falls));
    assert_eq!(reasons(bad, PLACEMENT, &mut []), Err(falls));
    let missing = Refused { number: 5, line: 2 };
    assert_eq!(score(JOB, b"9,0,1\n"), Err(missing));
    assert_eq!(sentence(JOB, b"9,0,1\n"), Err(missing));
    let store = Refused { number: 6, line: 0 };
    assert_eq!(place(JOB, &mut [], &mut []), Err(store));
    let count = Refused { number: 9, line: 0 };
    assert_eq!(load(1, 65, &mut []), Err(count));
    assert_eq!(farm_job(1, 65), Err(count));
    let output = Refused {
        number: 10,
        line: 0,
    };
    assert_eq!(load(1, 64, &mut [0; LOAD_BYTES - 1]), Err(output));
    let output = Refused {
        number: 11,
        line: 0,
    };
    let short = &mut [0; REASONS_BYTES - 1];
    assert_eq!(reasons(JOB, PLACEMENT, short), Err(output));
}
