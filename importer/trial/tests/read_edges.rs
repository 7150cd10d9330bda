//! The edges of the scope that concern Read, one by one.

use importer::{read, Refused};

const ONE_ROW: &str = "J,1,20,1,1,100,1,100,50\n";
const TWO_ROWS: &str = "J,2,20,1,1,100,1,100,50\n";
const SINGLE: &str = "C,0,5,0,1,4,3,3,2,2\n";
const SINGLE_OF_ROW_1: &str = "C,1,5,0,1,4,3,3,2,2\n";
const TALL: &str = "C,2,5,0,1,4,3,3,2,2,3,3,2,2\n";

/// An edge: its name, its text, and the cell count or the refusal's number and line.
type Edge = (&'static str, String, Result<u32, (u32, u32)>);

/// Reads each text, and the same text with fixed cells (A2), and reports every one of which Read
/// says something else.
fn work_through(edges: &[Edge]) {
    let mut disagreeing = Vec::new();
    for (edge, text, expected) in edges {
        let expected = expected.map_err(|(number, line)| Refused { number, line });
        for (leads, text) in [("C", text.clone()), ("F", text.replace('C', "F"))] {
            let said = read(text.as_bytes()).map(|read| read.cells);
            if said != expected {
                disagreeing.push(format!("{edge}, led by {leads}: {said:?} for {expected:?}"));
            }
        }
    }
    assert!(disagreeing.is_empty(), "{}", disagreeing.join("\n"));
}

#[test]
fn limits() {
    work_through(&[
        ("no cells", ONE_ROW.into(), Ok(0)),
        (
            "64 cells",
            format!("{ONE_ROW}{}", SINGLE.repeat(64)),
            Ok(64),
        ),
        (
            "a 65th",
            format!("{ONE_ROW}{}", SINGLE.repeat(65)),
            Err((3, 66)),
        ),
        (
            "a 66th",
            format!("{ONE_ROW}{}", SINGLE.repeat(66)),
            Err((3, 66)),
        ),
        ("24 tall", format!("{TWO_ROWS}{}", TALL.repeat(24)), Ok(24)),
        (
            "a 25th tall",
            format!("{TWO_ROWS}{}", TALL.repeat(25)),
            Err((3, 26)),
        ),
        (
            "24 tall among 64",
            format!("{TWO_ROWS}{}{}", SINGLE.repeat(40), TALL.repeat(24)),
            Ok(64),
        ),
        (
            "a 25th tall among 64",
            format!("{TWO_ROWS}{}{}", SINGLE.repeat(39), TALL.repeat(25)),
            Err((3, 65)),
        ),
        (
            "a 65th that also falls",
            format!("{ONE_ROW}{}C,0,4,0,1,4,3,3,2,2\n", SINGLE.repeat(64)),
            Err((3, 66)),
        ),
        (
            "a 65th out of range",
            format!("{ONE_ROW}{}C,0,4,2,1,4,3,3,2,2\n", SINGLE.repeat(64)),
            Err((2, 66)),
        ),
    ]);
}

#[test]
fn order_of_given_sites() {
    let lower = "C,0,4,0,1,4,3,3,2,2\n";
    let lower_tall = "C,2,4,0,1,4,3,3,2,2,3,3,2,2\n";
    let lower_of_row_1 = "C,1,4,0,1,4,3,3,2,2\n";
    work_through(&[
        ("equal sites", format!("{ONE_ROW}{SINGLE}{SINGLE}"), Ok(2)),
        ("a fall", format!("{ONE_ROW}{SINGLE}{lower}"), Err((4, 3))),
        (
            "a fall across rows",
            format!("{TWO_ROWS}{SINGLE_OF_ROW_1}{lower}"),
            Ok(2),
        ),
        (
            "a fall from tall to row 0",
            format!("{TWO_ROWS}{TALL}{lower}"),
            Err((4, 3)),
        ),
        (
            "a fall from tall to row 1",
            format!("{TWO_ROWS}{TALL}{lower_of_row_1}"),
            Err((4, 3)),
        ),
        (
            "a fall from row 0 to tall",
            format!("{TWO_ROWS}{SINGLE}{lower_tall}"),
            Err((4, 3)),
        ),
        (
            "a fall from row 1 to tall",
            format!("{TWO_ROWS}{SINGLE_OF_ROW_1}{lower_tall}"),
            Err((4, 3)),
        ),
        (
            "a fall two lines back",
            format!("{TWO_ROWS}{SINGLE}{lower_of_row_1}{lower}"),
            Err((4, 4)),
        ),
    ]);
}

#[test]
fn forms_of_a_line() {
    let cell = |line: &str| format!("{ONE_ROW}{line}");
    work_through(&[
        ("the empty text", String::new(), Err((1, 1))),
        ("a line feed alone", "\n".into(), Err((1, 1))),
        ("no line feed", ONE_ROW.trim_end().into(), Err((1, 1))),
        (
            "no line feed at the end",
            cell(SINGLE.trim_end()),
            Err((1, 2)),
        ),
        ("an empty line at the end", cell("\n"), Err((1, 2))),
        (
            "eight fields first",
            "J,1,20,1,1,100,1,100\n".into(),
            Err((1, 1)),
        ),
        (
            "ten fields first",
            "J,1,20,1,1,100,1,100,50,0\n".into(),
            Err((1, 1)),
        ),
        ("a cell line first", SINGLE.into(), Err((1, 1))),
        ("the first line twice", cell(ONE_ROW), Err((1, 2))),
        (
            "carriage return",
            cell("C,0,5,0,1,4,3,3,2,2\r\n"),
            Err((1, 2)),
        ),
        ("leading zero", cell("C,0,05,0,1,4,3,3,2,2\n"), Err((1, 2))),
        (
            "five digits",
            cell("C,0,10000,0,1,4,3,3,2,2\n"),
            Err((1, 2)),
        ),
        ("an empty field", cell("C,0,,0,1,4,3,3,2,2\n"), Err((1, 2))),
        (
            "a comma at the end",
            cell("C,0,5,0,1,4,3,3,2,2,\n"),
            Err((1, 2)),
        ),
        ("four fields", cell("C,0,5,0\n"), Err((1, 2))),
        ("five fields", cell("C,0,5,0,1\n"), Err((1, 2))),
        ("a height too few", cell("C,0,5,0,1,4,3,3,2\n"), Err((1, 2))),
        (
            "a height too many",
            cell("C,0,5,0,1,4,3,3,2,2,2\n"),
            Err((1, 2)),
        ),
        (
            "one layout for two",
            cell("C,0,5,0,2,4,3,3,2,2\n"),
            Err((1, 2)),
        ),
    ]);
}

/// A7: "Refusal 1 expects ten fields on a `K` line".
#[test]
fn lines_led_by_k() {
    let filled = |filled: &str| format!("K,1,20,1,1,100,1,100,50,{filled}\n");
    let cells = |count: usize| filled("30") + &SINGLE.repeat(count);
    work_through(&[
        ("ten fields", filled("30"), Ok(0)),
        ("its cells", cells(2), Ok(2)),
        ("a 65th", cells(65), Err((3, 66))),
        (
            "nine fields",
            "K,1,20,1,1,100,1,100,50\n".into(),
            Err((1, 1)),
        ),
        ("eleven fields", filled("30,0"), Err((1, 1))),
        (
            "nine fields, led by J",
            "J,1,20,1,1,100,1,100,50\n".into(),
            Ok(0),
        ),
        (
            "ten fields, led by J",
            "J,1,20,1,1,100,1,100,50,30\n".into(),
            Err((1, 1)),
        ),
        ("filled 0", filled("0"), Ok(0)),
        ("filled 1,000", filled("1000"), Ok(0)),
        ("filled 1,001", filled("1001"), Err((2, 1))),
        ("no number", filled("x"), Err((1, 1))),
        ("an empty field", filled(""), Err((1, 1))),
        ("a form before a range", filled("1001,x"), Err((1, 1))),
        (
            "a count before a range",
            "K,3,20,1,1,100,1,100,50\n".into(),
            Err((1, 1)),
        ),
        ("a range before line 2", filled("1001") + "x", Err((2, 1))),
        ("K alone", "K".into(), Err((1, 1))),
        ("K and a line feed", "K\n".into(), Err((1, 1))),
        ("K and a comma", "K,".into(), Err((1, 1))),
        ("K,1", "K,1\n".into(), Err((1, 1))),
        ("KJ", format!("K{ONE_ROW}"), Err((1, 1))),
        ("k", filled("30").to_lowercase(), Err((1, 1))),
        ("K twice", filled("30").repeat(2), Err((1, 2))),
        (
            "K for a cell",
            filled("30") + "K,0,5,0,1,4,3,3,2,2\n",
            Err((1, 2)),
        ),
    ]);
}

#[test]
fn ranges_and_the_order_of_refusals() {
    let cell = |line: &str| format!("{ONE_ROW}{line}");
    work_through(&[
        ("no rows", "J,0,20,1,1,100,1,100,50\n".into(), Err((2, 1))),
        (
            "three rows",
            "J,3,20,1,1,100,1,100,50\n".into(),
            Err((2, 1)),
        ),
        ("no sites", "J,1,0,1,1,100,1,100,50\n".into(), Err((2, 1))),
        (
            "1,024 sites",
            "J,1,1024,7,1,1000,1000,1000,1000\n".into(),
            Ok(0),
        ),
        (
            "1,025 sites",
            "J,1,1025,1,1,100,1,100,50\n".into(),
            Err((2, 1)),
        ),
        ("D 8", "J,1,20,8,1,100,1,100,50\n".into(), Err((2, 1))),
        ("R 2", "J,1,20,1,2,100,1,100,50\n".into(), Ok(0)),
        ("R 3", "J,1,20,1,3,100,1,100,50\n".into(), Err((2, 1))),
        (
            "a weight of 1,001",
            "J,1,20,1,1,100,1,100,1001\n".into(),
            Err((2, 1)),
        ),
        ("row 1 of one", cell(SINGLE_OF_ROW_1), Err((2, 2))),
        ("tall in one row", cell(TALL), Err((2, 2))),
        ("row 3 before the count", cell("C,3,5,0,1,4\n"), Err((2, 2))),
        (
            "layouts before the count",
            cell("C,0,5,0,3,4\n"),
            Err((2, 2)),
        ),
        (
            "a count before a range",
            cell("C,0,1024,2,1,4\n"),
            Err((1, 2)),
        ),
        ("a form before a row", cell("C,3,5,0,1,x\n"), Err((1, 2))),
        ("given 1,023", cell("C,0,1023,0,1,64,15,15,15,15\n"), Ok(1)),
        ("given 1,024", cell("C,0,1024,0,1,4,3,3,2,2\n"), Err((2, 2))),
        ("mirrorable 2", cell("C,0,5,2,1,4,3,3,2,2\n"), Err((2, 2))),
        ("width 0", cell("C,0,5,0,1,0,3,3,2,2\n"), Err((2, 2))),
        ("width 65", cell("C,0,5,0,1,65,3,3,2,2\n"), Err((2, 2))),
        ("height 0", cell("C,0,5,0,1,4,3,3,2,0\n"), Err((2, 2))),
        ("height 16", cell("C,0,5,0,1,4,16,3,2,2\n"), Err((2, 2))),
        (
            "the earlier of two bad lines",
            cell("C,3,5,0,1,4\nx\n"),
            Err((2, 2)),
        ),
    ]);
}
