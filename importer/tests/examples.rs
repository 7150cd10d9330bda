//! The examples print what is worked here by hand.

#[allow(dead_code)]
#[path = "../examples/place.rs"]
mod place;
#[allow(dead_code)]
#[path = "../examples/score.rs"]
mod score;

use importer::{refine, Refiner};
use std::process::Command;

const WORKED: &[u8] = include_bytes!("../../examples/worked.job");
const FIXED: &str = include_str!("../../examples/fixed.job");
const REORDER: &str = include_str!("../../examples/reorder.job");
const FILLED: &str = include_str!("../../examples/filled.job");
const README: &str = include_str!("../../README.md");

fn placed(job: &[u8]) -> String {
    place::report(&mut Refiner::new(), job).expect("a report is written")
}

#[test]
fn place_builds_the_worked_job() {
    assert_eq!(place::worked().text(), WORKED);
    let numbers = "cost 100, steps 0, sites shifted 0, mirrored 1, changed 0, drift 0\n";
    let cells = "cell 1: site 2, layout 0, mirrored\ncell 2: site 6, layout 0\n";
    assert_eq!(placed(WORKED), format!("{numbers}{cells}"));
}

#[test]
fn place_tells_of_a_refusal() {
    let told = placed(b"J,1,20,1,1,100,1,100,50\nC,0,2,1,1,4,3,3,2,16\n");
    let lines: Vec<&str> = told.lines().collect();
    assert_eq!(lines.len(), 2, "{told}");
    assert!(lines[0].starts_with("refusal 2 at line 2: "), "{told}");
    assert_eq!(
        lines[1],
        "field 10 (layout 0, right N) is 16; allowed 1 to 15"
    );
}

#[test]
fn score_tells_of_drawn_rows() {
    let legal = |cost, steps, shifted, mirrored, drift| {
        format!(
            "legal: cost {cost}, steps {steps}, sites shifted {shifted}, mirrored {mirrored}, \
             changed 0, drift {drift}"
        )
    };
    let told = |row| score::told(row).expect("a row of three cells");
    // A's right heights 2 2 face B's left 3 3; B's right and C's left are the same.
    assert_eq!(told("..AAAABBBBCCC.."), legal(200, 2, 0, 0, 0));
    assert_eq!(told("..aaaaBBBBCCC.."), legal(50, 0, 0, 1, 0));
    // Two cells shifted by two sites: a mean of -4 / 3.
    assert_eq!(told("AAAABBBB..CCC.."), legal(240, 2, 4, 0, -133));
    for (row, sentence) in [
        ("..AAAABBBB.CCC.", "one-site gap: cell 2, cell 3."),
        ("..BBBBCCCAAAA..", "order moved too far: cell 1."),
        (".AAAABBBB..CCC.", "one-site row end: cell 1, cell 3."),
        ("..AAAAbbbbCCC..", "choice not offered: cell 2."),
    ] {
        assert_eq!(told(row), sentence, "{row}");
    }
    let missing = score::told("..AAAA").unwrap_err().to_string();
    assert_eq!(missing, "..AAAA has no cell B");
}

/// What `refine` prints of a job's file.
fn printed(job: &str) -> String {
    of_shell(&format!("refine {job}"))
}

/// What a line of the shell prints in the repository's root, where `refine` is the program.
fn of_shell(line: &str) -> String {
    let said = Command::new("bash")
        .args(["-c", &format!("refine() {{ \"$REFINE\" \"$@\"; }}\n{line}")])
        .env("REFINE", env!("CARGO_BIN_EXE_refine"))
        .current_dir(concat!(env!("CARGO_MANIFEST_DIR"), "/.."))
        .output();
    String::from_utf8(said.expect("bash ends").stdout).expect("an answer is a text")
}

/// A text as README shows it.
fn shown(text: &str) -> String {
    text.lines().map(|line| format!("    {line}\n")).collect()
}

/// Cell 1's right heights are 2 and 2 and cell 2's left ones 3 and 3, and so between cells 2 and 3.
/// Free, cell 2 is mirrored, for 5. Fixed, it leaves the others to go four sites away: from 2 to 0
/// and from 12 to 16, where the row ends. The mean shift is 2 / 3.
#[test]
fn readme_shows_the_fixed_cell() {
    let output = printed("examples/fixed.job");
    assert_eq!(output, "6,0,6,0,0,67\n0,0,0\n8,0,0\n16,0,0\n");
    assert!(README.contains(&shown(FIXED)), "README lacks the job");
    let told = shown(&format!("$ refine examples/fixed.job\n{output}"));
    assert!(README.contains(&told), "README lacks the answer");
    let free = refine(FIXED.replace('F', "C").as_bytes()).expect("a placement exists");
    assert_eq!(free.text, b"2,0,0\n8,0,1\n12,0,0\n");
    assert_eq!((free.numbers.cost, free.numbers.mirrored), (5, 1));
}

/// The row is full, so the order tells the sites. With cell 1 behind cells 2 and 3 all heights that
/// face each other are equal: 5 + 2 + 2 sites shifted, and a mean of 1 / 4. By one, file order is
/// cheapest: 4 and 3 of cell 1 face 2 and 2. Cell 2 before cell 1 has two steps too, and shifts; the
/// other orders have more steps.
#[test]
fn reordering_by_two_closes_the_steps() {
    let output = printed("examples/reorder.job");
    assert_eq!(output, "9,0,9,0,0,25\n5,0,0\n0,0,0\n3,0,0\n7,0,0\n");
    let by_one = REORDER.replacen("J,1,11,5,2,", "J,1,11,5,1,", 1);
    let by_one = refine(by_one.as_bytes()).expect("a placement exists");
    assert_eq!(by_one.numbers.fields(), "200,2,0,0,0,0");
    assert_eq!(by_one.text, b"0,0,0\n2,0,0\n5,0,0\n7,0,0\n");
    assert!(README.contains(&shown(REORDER)), "README lacks the job");
    let told = shown(&format!("$ refine examples/reorder.job\n{output}"));
    assert!(README.contains(&told), "README lacks the answer with R 2");
    let told = shown("200,2,0,0,0,0\n0,0,0\n2,0,0\n5,0,0\n7,0,0\n");
    assert!(README.contains(&told), "README lacks the answer with R 1");
}

/// Heights 2 and 2 of cell 1 face 3 and 3 of cell 2, and 2 and 2 of cell 2 face 2 and 3 of cell 3,
/// which is fixed: two steps and one, wherever cell 2 stands, at 4 or at 6. At 4 the two are at gap 0
/// and the one is filled, at 6 the other way round: 2 * 100 + 30, or 100 + 2 * 30 and a shift of 2,
/// which is a mean of 2 / 3. Cell 1 can only go to 2, with cell 2 at 6, and then all three are at gap
/// 0. Led by `J`, all steps weigh 100, and nothing shifts for them.
#[test]
fn filled_steps_may_weigh_less() {
    let output = printed("examples/filled.job");
    assert_eq!(output, "162,3,2,0,0,67,2\n0,0,0\n6,0,0\n10,0,0\n");
    let command = "sed 's/^K/J/; s/,30$//' examples/filled.job | refine";
    let led_by_j = of_shell(command);
    assert_eq!(led_by_j, "300,3,0,0,0,0\n0,0,0\n4,0,0\n10,0,0\n");
    assert!(README.contains(&shown(FILLED)), "README lacks the job");
    let told = shown(&format!("$ refine examples/filled.job\n{output}"));
    assert!(README.contains(&told), "README lacks the answer");
    let told = shown(&format!("$ {command}\n{led_by_j}"));
    assert!(README.contains(&told), "README lacks the answer led by J");
}
