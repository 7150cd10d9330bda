//! The words of explanations, one text for each kind. That a reason belongs to the refiner's answer
//! is tried on generated texts too, in `trial/tests/explain_agrees.rs`.

mod lines;

use importer::explain::{job_line, placement_line, printable};
use importer::Refused;

const HEADER: &str = "J,1,20,1,1,100,1,100,50\n";
const WORKED: &str = include_str!("../../../examples/worked.job");

/// The refiner's answer is the truth: words for another one are not given.
#[test]
fn of_another_answer_there_is_nothing_to_say() {
    for (number, line) in [(0, 0), (1, 1), (2, 1), (2, 3), (8, 0), (u32::MAX, u32::MAX)] {
        let refused = Refused { number, line };
        let job = format!("{HEADER}C,0,5,0,3,4\n");
        assert_eq!(job_line(job.as_bytes(), &refused), None);
        assert_eq!(placement_line(job.as_bytes(), b"x", &refused), None);
        assert_eq!(job_line(WORKED.as_bytes(), &refused), None);
    }
}

#[test]
fn what_is_echoed_is_printable_and_not_long() {
    assert_eq!(printable(b"C,0,5\n"), "C,0,5");
    assert_eq!(printable(b"C\r\n"), "C\\r");
    assert_eq!(
        printable(b"\x1b[2J\0\x7f\xff\t\\ \"'"),
        "\\x1b[2J\\x00\\x7f\\xff\\t\\\\ \"'"
    );
    assert_eq!(printable(b""), "");
    let line = "7".repeat(200);
    assert_eq!(printable(line.as_bytes()), line);
    let longer = format!("{line}888\n");
    assert_eq!(
        printable(longer.as_bytes()),
        format!("{line} ... 3 more bytes")
    );
}
