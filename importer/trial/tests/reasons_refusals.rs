//! Reasons' refusals: Score's 1 to 5, then 11; their order, what they leave untouched, every length
//! of results.

use trial::generate::{broken, Random};
use trial::lent::{Arrays, LONGEST};
use trial::plain::placement::text_of;
use trial::plain::reasons::{reasons, reasons_results, OUTPUT};

const UNTOUCHED: u8 = 0xaa;

/// Calls Reasons with an output of so many bytes and an array of the next length; the number that
/// it returns, once all that it left was looked at.
fn number(arrays: &mut Arrays, [job, placement]: [&[u8]; 2], bytes: usize) -> u32 {
    let mut output = vec![UNTOUCHED; bytes];
    let call = |results: &mut [i32]| importer::calls::reasons(job, placement, &mut output, results);
    let left = arrays.lend(call);
    let said = reasons(job, placement, bytes);
    let results = reasons_results(&said);
    if let Err(difference) = left.check(results[0] as u32, &results) {
        panic!("Reasons {difference} in {bytes} bytes");
    }
    let sentence = said.unwrap_or_default();
    let (written, rest) = output.split_at(sentence.len());
    assert_eq!(written, sentence.as_bytes());
    assert!(rest.iter().all(|&byte| byte == UNTOUCHED));
    left.returned()
}

/// Calls Reasons with an array of each length.
fn check(texts: [&[u8]; 2], bytes: usize, expected: u32) {
    let mut arrays = Arrays::default();
    for _ in 0..=LONGEST {
        let number = number(&mut arrays, texts, bytes);
        assert_eq!(number, expected, "in {bytes} bytes");
    }
}

const WORKED: &[u8] = include_bytes!("../../../examples/worked.job");
const LEGAL: &[u8] = b"2,0,1\n6,0,0\n";

/// Outputs that are too short, and such as are long enough.
const SHORT: [usize; 6] = [0, 1, 6, 24, OUTPUT / 2, OUTPUT - 1];
const LONG: [usize; 3] = [OUTPUT, OUTPUT + 1, 8 * OUTPUT];

/// A pair of texts for each of Score's refusals.
fn refused() -> [(u32, Vec<u8>, &'static [u8]); 5] {
    let header = "J,1,20,1,1,100,1,100,50\n";
    let cell = "C,0,2,1,1,4,3,3,2,2\n";
    let many = header.to_owned() + &cell.repeat(65);
    let falls = format!("{header}{cell}C,0,1,0,1,4,3,3,2,2\n");
    [
        (1, b"J,1\n".to_vec(), LEGAL),
        (2, b"J,3,20,1,1,100,1,100,50\n".to_vec(), LEGAL),
        (3, many.into(), LEGAL),
        (4, falls.into(), LEGAL),
        (5, WORKED.to_vec(), b"2,0,1\n6,0\n"),
    ]
}

#[test]
fn scores_refusals_are_tried_before_the_output() {
    for (expected, job, placement) in refused() {
        for bytes in SHORT.into_iter().chain(LONG) {
            check([&job, placement], bytes, expected);
        }
    }
}

#[test]
fn scores_refusals_keep_their_order() {
    // A job and a placement that are both refused, each time for the job.
    for (expected, job, _) in &refused()[..4] {
        for placement in [&b""[..], b"x", b"2,0,1\n6,0\n"] {
            check([job, placement], OUTPUT, *expected);
            check([job, placement], 0, *expected);
        }
    }
}

#[test]
fn a_short_output_is_refused_whatever_the_sentence() {
    // Six bytes would hold `legal.`, and so would many of these.
    for bytes in SHORT {
        check([WORKED, LEGAL], bytes, 11);
        check([WORKED, b"3,0,0\n6,0,0\n"], bytes, 11);
        check([b"J,1,9,0,0,0,0,0,0\n", b""], bytes, 11);
    }
}

#[test]
fn what_is_just_enough_is_answered() {
    for bytes in LONG {
        check([WORKED, LEGAL], bytes, 0);
        check([WORKED, b"3,0,0\n6,0,0\n"], bytes, 0);
        check([b"J,1,9,0,0,0,0,0,0\n", b""], bytes, 0);
    }
}

#[test]
fn on_any_pair_and_any_output() {
    let mut random = Random::new(108);
    let mut arrays = Arrays::default();
    let mut seen = [0; 12];
    for count in 0..20_000 {
        let (job, placement) = broken::job_with_broken_rule(&mut random, 1 + count % 8);
        let mut text = text_of(&placement);
        if random.chance(1, 4) {
            text.truncate(random.below(text.len()));
        }
        let bytes = match random.below(3) {
            0 => random.below(2 * OUTPUT),
            1 => OUTPUT - 1 - random.below(3),
            _ => OUTPUT + random.below(3),
        };
        let number = number(&mut arrays, [&job.text(), &text], bytes);
        seen[number as usize] += 1;
    }
    let [answered, _, _, _, _, five, .., eleven] = seen;
    assert_eq!(answered + five + eleven, 20_000, "{seen:?}");
    assert!(answered.min(five).min(eleven) > 2_000, "{seen:?}");
}
