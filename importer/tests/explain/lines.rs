//! Lines of a job and of a placement that are refused.

use super::{HEADER, WORKED};
use importer::explain::{job_line, placement_line};
use importer::{read, score, Refused};

const TWO_ROWS: &str = "J,2,20,1,1,100,1,100,50\n";

/// What is said of a job that Read refuses with this number, at this line.
fn check_job(job: impl AsRef<[u8]>, number: u32, line: u32, words: &str) {
    let job = job.as_ref();
    let refused = Refused { number, line };
    assert_eq!(read(job).err(), Some(refused), "{words}");
    assert_eq!(job_line(job, &refused).as_deref(), Some(words));
}

/// What is said of a single cell line in a job of one row.
fn check_cell(line: &str, number: u32, words: &str) {
    check_job(format!("{HEADER}{line}"), number, 2, words);
}

#[test]
fn of_a_text_that_starts_or_ends_wrong() {
    check_job("", 1, 1, "the job is empty");
    let mark = "the text starts with a UTF-8 byte order mark";
    check_job(format!("\u{feff}{HEADER}"), 1, 1, mark);
    let mark = "the text starts with a UTF-16 byte order mark";
    check_job(b"\xff\xfeJ\0,\0", 1, 1, mark);
    let ends = "line ends with CR LF; lines end with LF alone";
    check_job(HEADER.replace('\n', "\r\n"), 1, 1, ends);
    check_cell("\r\n", 1, ends);
    check_job(HEADER.trim_end(), 1, 1, "the last line has no line feed");
    check_cell("C,0,5,0,1,4,3,3,2,2", 1, "the last line has no line feed");
    check_cell("\n", 1, "the line is empty");
}

#[test]
fn of_a_lead() {
    for lead in ["", "C", "j", "k", "JJ", "KJ", "JK", "K K"] {
        let begins = "the first line begins with J or K";
        let words = format!("field 1 (lead) is \"{lead}\"; {begins}");
        check_job(format!("{lead},1,20,1,1,1,1,1,1,1\n"), 1, 1, &words);
    }
    let lead = "field 1 (lead) is \"J;1;20\"; the first line begins with J or K";
    check_job("J;1;20\n", 1, 1, lead);
    for lead in ["", "c", "f", "J", "K", "CC", "FF", "CF", "FC", "F C"] {
        let begins = "a line after the first begins with C or F";
        let words = format!("field 1 (lead) is \"{lead}\"; {begins}");
        check_cell(&format!("{lead},0,5,0,1,4,3,3,2,2\n"), 1, &words);
    }
}

#[test]
fn of_fields_that_are_no_numbers() {
    let check = |field: &str, words: &str| {
        check_cell(&format!("C,0,{field},0,1,4,3,3,2,2\n"), 1, words);
    };
    let form = "a number is one to four digits";
    check("", &format!("field 3 (given) is empty; {form}"));
    check("x", &format!("field 3 (given) is \"x\"; {form}"));
    check("1.0", &format!("field 3 (given) is \"1.0\"; {form}"));
    check(
        "\0é",
        &format!("field 3 (given) is \"\\x00\\xc3\\xa9\"; {form}"),
    );
    check(
        "05",
        "field 3 (given) is \"05\"; a number has no leading zero",
    );
    check(
        "10000",
        "field 3 (given) is \"10000\"; a number has at most four digits",
    );
    check("-5", "field 3 (given) is \"-5\"; a number has no sign");
    check(" 5", "field 3 (given) is \" 5\"; fields have no spaces");
    check(
        "\"5\"",
        "field 3 (given) is \"\\\"5\\\"\"; fields are not quoted",
    );
    let long = "7".repeat(100);
    let shown = "7".repeat(40);
    let words = format!(
        "field 3 (given) is \"{shown}\" ... 60 more bytes; a number has at most four digits"
    );
    check(&long, &words);
}

/// A field behind the first five has a name where row and layouts say which it is.
#[test]
fn of_the_names_of_fields() {
    let check = |line: &str, field: &str| {
        let words = format!("{field} is \"x\"; a number is one to four digits");
        check_cell(line, 1, &words);
    };
    check("C,0,5,0,1,4,3,3,2,x\n", "field 10 (layout 0, right N)");
    check("C,1,5,0,2,4,3,3,2,2,x\n", "field 11 (layout 1, width)");
    check(
        "C,2,5,0,1,4,3,3,2,2,1,x\n",
        "field 12 (layout 0, row 1, left N)",
    );
    check("C,0,5,0,1,4,3,3,2,2,x\n", "field 11");
    check("C,3,5,0,1,4,x\n", "field 7");
    check("C,0,5,0,3,4,x\n", "field 7");
    let check_header = |line: &str, field: &str| {
        let words = format!("{field} is \"x\"; a number is one to four digits");
        check_job(line, 1, 1, &words);
    };
    check_header("J,1,20,1,1,100,1,100,x\n", "field 9 (swap)");
    check_header("K,1,20,1,1,100,1,100,x,30\n", "field 9 (swap)");
    check_header("K,1,20,1,1,100,1,100,50,x\n", "field 10 (filled)");
    check_header("J,1,20,1,1,100,1,100,50,x\n", "field 10");
    check_header("K,1,20,1,1,100,1,100,50,30,x\n", "field 11");
}

#[test]
fn of_the_number_of_fields() {
    let nine = "the first line has 9: J,rows,sites,D,R,step,shift,mirror,swap";
    check_job("J,1,20,1,1,100,1,100\n", 1, 1, &format!("8 fields, {nine}"));
    check_job("J\n", 1, 1, &format!("1 field, {nine}"));
    let words = format!("10 fields, {nine}; with filled behind them it begins with K");
    check_job("J,1,20,1,1,100,1,100,50,30\n", 1, 1, &words);
    let words = format!("11 fields, {nine}");
    check_job("J,1,20,1,1,100,1,100,50,30,1\n", 1, 1, &words);
    let ten = "the first line has 10: K,rows,sites,D,R,step,shift,mirror,swap,filled";
    let words = format!("9 fields, {ten}");
    check_job("K,1,20,1,1,100,1,100,50\n", 1, 1, &words);
    let words = format!("11 fields, {ten}");
    check_job("K,1,20,1,1,100,1,100,50,30,1\n", 1, 1, &words);
    check_job("K\n", 1, 1, &format!("1 field, {ten}"));
    check_job("K", 1, 1, "the last line has no line feed");
    let five = "a cell line has at least 5: C,row,given,mirrorable,layouts";
    check_cell("C,0,5,0\n", 1, &format!("4 fields, {five}"));
    let five = "a cell line has at least 5: F,row,given,mirrorable,layouts";
    check_cell("F\n", 1, &format!("1 field, {five}"));
    let fit = "12 fields, 10 fit row 0 with 1 layout";
    check_cell("C,0,5,0,1,4,3,3,2,2,1,1\n", 1, fit);
    let fit = "10 fields, 23 fit row 2 with 2 layouts";
    check_job(format!("{TWO_ROWS}C,2,5,0,2,4,3,3,2,2\n"), 1, 2, fit);
}

#[test]
fn of_ranges() {
    let check_header = |line: &str, words: &str| check_job(line, 2, 1, words);
    check_header(
        "J,3,20,1,1,1,1,1,1\n",
        "field 2 (rows) is 3; allowed 1 or 2",
    );
    check_header(
        "J,1,0,1,1,1,1,1,1\n",
        "field 3 (sites) is 0; allowed 1 to 1024",
    );
    check_header("J,1,20,8,1,1,1,1,1\n", "field 4 (D) is 8; allowed 0 to 7");
    check_header("J,1,20,1,3,1,1,1,1\n", "field 5 (R) is 3; allowed 0 to 2");
    check_header(
        "J,1,20,1,1,1,1,1,1001\n",
        "field 9 (swap) is 1001; allowed 0 to 1000",
    );
    check_header(
        "K,1,20,1,1,1,1,1,1,1001\n",
        "field 10 (filled) is 1001; allowed 0 to 1000",
    );
    // The first field that is out of range is told.
    check_header(
        "K,1,20,8,1,1,1,1,1,1001\n",
        "field 4 (D) is 8; allowed 0 to 7",
    );
    let check = |line: &str, words: &str| check_cell(line, 2, words);
    let row = "field 2 (row) is 1; allowed 0, as the first line says 1 row";
    check("C,1,5,0,1,4,3,3,2,2\n", row);
    let row = "field 2 (row) is 3; allowed 0 to 2";
    check_job(format!("{TWO_ROWS}C,3,5,0,1,4\n"), 2, 2, row);
    check("C,0,5,0,3,4\n", "field 5 (layouts) is 3; allowed 1 or 2");
    check(
        "C,0,1024,0,1,4,3,3,2,2\n",
        "field 3 (given) is 1024; allowed 0 to 1023",
    );
    check(
        "C,0,5,2,1,4,3,3,2,2\n",
        "field 4 (mirrorable) is 2; allowed 0 or 1",
    );
    check(
        "C,0,5,0,1,65,3,3,2,2\n",
        "field 6 (layout 0, width) is 65; allowed 1 to 64",
    );
    let height = "field 10 (layout 0, right N) is 16; allowed 1 to 15";
    check("C,0,5,0,1,4,3,3,2,16\n", height);
}

#[test]
fn of_limits_and_falling_sites() {
    let single = "C,0,6,0,1,4,3,3,2,2\n";
    let tall = "C,2,6,0,1,4,3,3,2,2,3,3,2,2\n";
    let many = format!("{HEADER}{}", single.repeat(65));
    check_job(many, 3, 66, "cell 65; a job has at most 64 cells");
    let many = format!("{TWO_ROWS}{single}{}", tall.repeat(25));
    let words = "cell 26 is tall cell 25; a job has at most 24 tall cells";
    check_job(many, 3, 27, words);
    let lower = "C,0,4,0,1,4,3,3,2,2\n";
    let falls = format!("{HEADER}{lower}{lower}{single}{lower}");
    let words = "field 3 (given) is 4, below 6, the given site of cell 3 (line 4) in row 0";
    check_job(falls, 4, 5, words);
    let falls = format!("{TWO_ROWS}{tall}{}", lower.replace("C,0", "C,1"));
    let words = "field 3 (given) is 4, below 6, the given site of cell 1 (line 2) in row 1";
    check_job(falls, 4, 3, words);
}

/// What is said of a placement of the worked example that is refused at this line.
#[test]
fn of_lines_of_a_placement() {
    let check = |placement: &str, line: u32, words: &str| {
        let (job, placement) = (WORKED.as_bytes(), placement.as_bytes());
        let refused = Refused { number: 5, line };
        assert_eq!(score(job, placement), Err(refused), "{words}");
        let said = placement_line(job, placement, &refused);
        assert_eq!(said.as_deref(), Some(words));
    };
    check(
        "",
        1,
        "the line is missing: the placement has 0 lines, the job 2 cells",
    );
    check(
        "2,0,1\n",
        2,
        "the line is missing: the placement has 1 line, the job 2 cells",
    );
    check(
        "2,0,1\n6,0,0\n6,0,0\n",
        3,
        "a line too many: the job has 2 cells",
    );
    check(
        "2,0,1\n6,0,0\n\n",
        3,
        "an empty line too many: the job has 2 cells",
    );
    check("2,0,1\n6,0,0", 2, "the last line has no line feed");
    check(
        "\u{feff}2,0,1\n6,0,0\n",
        1,
        "the text starts with a UTF-8 byte order mark",
    );
    check(
        "2,0,1\r\n6,0,0\r\n",
        1,
        "line ends with CR LF; lines end with LF alone",
    );
    check(
        "2,0\n6,0,0\n",
        1,
        "2 fields, a placement line has 3: site,layout,mirror",
    );
    check(
        "2,0,01\n",
        1,
        "field 3 (mirror) is \"01\"; a number has no leading zero",
    );
}
