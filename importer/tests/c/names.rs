//! Each name of the header is what the refiner does.

use crate::building::{build, folder, said};
use importer::{calls, load, place, read, reasons, refine, score, Refused};
use importer::{LOAD_BYTES, OUTPUT_BYTES, REASONS_BYTES, REFUSALS};
use importer::{STORE_WORDS, STORE_WORDS_BY_TWO};
use std::collections::{BTreeMap, BTreeSet};
use std::fmt::Debug;
use std::fs;
use std::process::Command;

const HEADER: &str = include_str!("../../include/refiner.h");

/// Five cells whose placement below has six different numbers.
const JOB: &[u8] = b"J,1,60,7,1,7,11,13,17
C,0,10,1,1,4,1,1,2,2
C,0,14,1,1,4,1,1,2,2
C,0,30,0,2,4,1,1,2,2,4,1,1,5,5
C,0,36,1,1,4,6,7,8,9
C,0,40,0,1,4,6,8,1,1
";
const PLACEMENT: &[u8] = b"9,0,1\n13,0,0\n30,1,0\n34,0,1\n40,0,0\n";
const SCORED: &[(&str, i32)] = &[
    ("STEPS", 3),
    ("SHIFTED", 4),
    ("MIRRORED", 2),
    ("CHANGED", 1),
    ("COST", 108),
    ("DRIFT", -80),
];

/// Cell 4 stands one empty site behind cell 3, and cell 5 one behind cell 4.
const BROKEN: &[u8] = b"9,0,1\n13,0,0\n30,1,0\n35,0,1\n40,0,0\n";
const SENTENCE: &str = "one-site gap: cell 3, cell 4, cell 5.";

/// Cells that just fill the row; every cheapest placement has the same seven fields.
const TIGHT: &[u8] = b"J,1,16,2,0,2,10,1,1
C,0,1,1,1,4,1,1,2,2
C,0,4,1,1,4,1,1,2,2
C,0,8,0,1,4,9,8,9,7
C,0,13,0,1,4,6,8,1,1
";
const PLACED: &[(&str, i32)] = &[
    ("STEPS", 4),
    ("SHIFTED", 2),
    ("MIRRORED", 1),
    ("CHANGED", 0),
    ("COST", 29),
    ("DRIFT", -50),
    ("TEXT_LENGTH", 25),
];

/// The first job's first line with a weight of 5 for filled steps, of which its placement has one:
/// what number, line, rule, cell and the seven numbers are then.
const FILLED: &str = "K,1,60,7,1,7,11,13,17,5";
const SCORED_FILLED: [i32; 11] = [0, 0, 0, 0, 3, 4, 2, 1, 106, -80, 1];

/// Worked in `filled.rs`: number, line, the seven numbers and the text's length.
const APART: &[u8] = b"K,1,24,1,0,7,11,3,17,5
C,0,0,1,1,4,1,3,2,3
C,0,4,0,1,4,1,1,4,4
C,0,10,0,1,4,5,6,7,8
C,0,17,0,1,3,9,10,1,1
C,0,21,1,1,4,2,2,1,2
";
const PLACED_FILLED: [i32; 10] = [0, 0, 6, 1, 2, 0, 51, -20, 4, 33];

/// The load of seed 7 with two cells, worked out by a program of its own.
const LOADED: &str = "J,2,1024,7,1,100,1,100,50
C,1,5,0,2,9,3,2,4,1,13,1,1,2,1
C,1,10,0,1,12,4,2,3,3
";

/// What no operation leaves here.
const PAINT: i32 = -777;

/// The header's names with their numbers, to be taken one by one.
struct Names(BTreeMap<String, usize>);

impl Names {
    /// Every name that the header has, but for its guard and the version, as gcc counts it.
    fn of_header() -> Names {
        let words = HEADER.split(|letter: char| !letter.is_ascii_alphanumeric() && letter != '_');
        let names: BTreeSet<&str> = words
            .filter(|word| word.starts_with("REFINER_"))
            .filter(|word| !["REFINER_H", "REFINER_VERSION"].contains(word))
            .collect();
        let line = |name| format!("    printf(\"{name} %ld\\n\", (long){name});\n");
        let lines: String = names.into_iter().map(line).collect();
        let program = format!(
            "#include \"refiner.h\"\n#include <stdio.h>\nint main(void) {{\n{lines}    return 0;\n}}\n"
        );
        let folder = folder("names");
        let source = folder.join("names.c");
        fs::write(&source, program).expect("a test may write its files");
        build(&source, &folder.join("names"), &[]);
        let lines = said(&mut Command::new(folder.join("names")));
        let entry = |line: &str| {
            let (name, number) = line.split_once(' ').expect("a name and a number");
            (name.into(), number.parse().expect("a natural number"))
        };
        Names(lines.lines().map(entry).collect())
    }

    fn take(&mut self, name: &str) -> usize {
        let number = self.0.remove(&format!("REFINER_{name}"));
        number.unwrap_or_else(|| panic!("the header lacks REFINER_{name}, or it is tried twice"))
    }
}

#[test]
fn each_name_is_what_the_refiner_does() {
    let mut names = Names::of_header();
    let limits = ["MAX_CELLS", "MAX_TALL"].map(|name| names.take(name));
    check_limits(limits);
    assert_eq!(names.take("STORE_WORDS"), STORE_WORDS);
    assert_eq!(names.take("STORE_WORDS_BY_TWO"), STORE_WORDS_BY_TWO);
    check_store();
    assert_eq!(
        names.take("OUTPUT_BYTES_PER_CELL") * limits[0],
        OUTPUT_BYTES
    );
    assert_eq!(names.take("LOAD_BYTES"), LOAD_BYTES);
    assert_eq!(names.take("REASONS_BYTES"), REASONS_BYTES);
    check_refusals(&mut names, limits[0] as u32);
    check_results(&mut names);
    check_filled(&mut names);
    check_texts(&mut names);
    check_part(&mut names);
    assert!(names.0.is_empty(), "no test of {:?}", names.0);
}

#[test]
fn the_version_is_that_of_the_package() {
    let line = format!("#define REFINER_VERSION \"{}\"", env!("CARGO_PKG_VERSION"));
    assert!(HEADER.lines().any(|said| said == line), "no line {line}");
}

/// A job with so many cells, of which so many are tall.
fn job_of(cells: usize, tall: usize) -> Vec<u8> {
    let head = "J,2,9,0,0,1,1,1,1\n";
    let short = "C,0,0,0,1,1,1,1,1,1\n".repeat(cells - tall);
    let tall = "C,2,0,0,1,1,1,1,1,1,1,1,1,1\n".repeat(tall);
    format!("{head}{short}{tall}").into()
}

fn check_limits([cells, tall]: [usize; 2]) {
    let accepted = |cells, tall| read(&job_of(cells, tall)).is_ok();
    assert!(accepted(cells, tall) && accepted(tall, tall));
    assert!(!accepted(cells + 1, 0) && !accepted(tall + 1, tall + 1));
}

/// The number of a refusal, or 0.
fn number<T>(called: Result<T, Refused>) -> u32 {
    called.err().map_or(0, |refused| refused.number)
}

/// The store that is just large enough, and one word less, with R 1 and with R 2.
fn check_store() {
    for (reordering, words) in [(1, STORE_WORDS), (2, STORE_WORDS_BY_TWO)] {
        let job = format!("J,1,9,0,{reordering},1,1,1,1\n");
        let lent = |words| number(place(job.as_bytes(), &mut vec![0; words], &mut []));
        assert_eq!([lent(words - 1), lent(words)], [6, 0], "R {reordering}");
    }
}

fn check_refusals(names: &mut Names, most: u32) {
    let lent = |words, bytes| number(place(JOB, &mut vec![0; words], &mut vec![0; bytes]));
    let loaded = |cells, bytes| number(load(1, cells, &mut vec![0; bytes]));
    let told = |bytes| number(reasons(JOB, BROKEN, &mut vec![0; bytes]));
    let falls = b"J,1,9,0,0,1,1,1,1\nC,0,1,0,1,1,1,1,1,1\nC,0,0,0,1,1,1,1,1,1\n";
    let wide = b"J,1,2,0,0,1,1,1,1\nC,0,0,0,1,3,1,1,1,1\n";
    let called = [
        ("ANSWERED", number(read(JOB))),
        ("REFUSED_FORM", number(read(b""))),
        ("REFUSED_RANGE", number(read(b"J,3,9,0,0,1,1,1,1\n"))),
        ("REFUSED_COUNT", number(read(&job_of(65, 0)))),
        ("REFUSED_ORDER", number(read(falls))),
        ("REFUSED_PLACEMENT", number(score(JOB, b""))),
        ("REFUSED_STORE", lent(STORE_WORDS - 1, OUTPUT_BYTES)),
        ("REFUSED_OUTPUT", lent(STORE_WORDS, 9 * 5 - 1)),
        ("REFUSED_NO_LEGAL", number(refine(wide))),
        ("REFUSED_LOAD_COUNT", loaded(most + 1, LOAD_BYTES)),
        ("REFUSED_LOAD_OUTPUT", loaded(most, LOAD_BYTES - 1)),
        ("REFUSED_REASONS_OUTPUT", told(REASONS_BYTES - 1)),
    ];
    let tried: Vec<u32> = called.iter().map(|(_, number)| *number).collect();
    let table: Vec<u32> = REFUSALS.iter().map(|entry| entry.number).collect();
    assert_eq!(tried[1..], table);
    for (name, number) in called {
        assert_eq!(names.take(name), number as usize, "{name}");
    }
}

/// What a call leaves in the entries of an array; it writes so many of them and no more.
fn written<N: Copy + PartialEq>(
    paint: N,
    count: usize,
    call: impl FnOnce(&mut [N]) -> u32,
) -> Vec<N> {
    let mut entries = vec![paint; 20];
    call(&mut entries);
    let kept = entries.split_off(count);
    assert!(!entries.contains(&paint) && kept.iter().all(|entry| *entry == paint));
    entries
}

/// Takes the names of fields, and checks that each stands for the field's value.
fn check_fields<N: Copy + PartialEq + Debug>(
    names: &mut Names,
    operation: &str,
    entries: &[N],
    fields: &[(&str, N)],
) {
    for (field, value) in fields {
        let at = names.take(&format!("{operation}_{field}"));
        assert_eq!(entries[at], *value, "{operation}_{field}");
    }
}

fn check_results(names: &mut Names) {
    let [number, line] = ["NUMBER", "LINE"].map(|name| names.take(name));
    let refused = written(PAINT, 10, |results| calls::score(JOB, b"9,0,1\n", results));
    assert_eq!((refused[number], refused[line]), (5, 2));

    let count = names.take("READ_RESULTS");
    let entries = written(PAINT, count, |results| calls::read(JOB, results));
    check_fields(names, "READ", &entries, &[("CELLS", 5)]);

    let count = names.take("SCORE_RESULTS");
    let entries = written(PAINT, count, |results| {
        calls::score(JOB, PLACEMENT, results)
    });
    check_fields(names, "SCORE", &entries, SCORED);
    let entries = written(PAINT, count, |results| calls::score(JOB, BROKEN, results));
    check_fields(names, "SCORE", &entries, &[("RULE", 5), ("CELL", 3)]);

    let count = names.take("PLACE_RESULTS");
    let (mut store, mut output) = (vec![0; STORE_WORDS], [0; OUTPUT_BYTES]);
    let entries = written(PAINT, count, |results| {
        calls::place(TIGHT, &mut store, &mut output, results)
    });
    check_fields(names, "PLACE", &entries, PLACED);
}

/// The entries for job texts that begin with `K,`.
fn check_filled(names: &mut Names) {
    let job = String::from_utf8_lossy(JOB).replacen("J,1,60,7,1,7,11,13,17", FILLED, 1);
    let count = names.take("SCORE_K_RESULTS");
    let score = |job: &[u8]| {
        written(PAINT, count, |results| {
            calls::score(job, PLACEMENT, results)
        })
    };
    let entries = score(job.as_bytes());
    assert_eq!(entries, SCORED_FILLED);
    check_fields(names, "SCORE", &entries, &[("K_FILLED_STEPS", 1)]);
    assert_eq!(score(b"K,"), [1, 1, 0, 0, 0, 0, 0, 0, 0, 0, 0]);

    let count = names.take("PLACE_K_RESULTS");
    let (mut store, mut output) = (vec![0; STORE_WORDS], [0; OUTPUT_BYTES]);
    let mut place = |job: &[u8]| {
        written(PAINT, count, |results| {
            calls::place(job, &mut store, &mut output, results)
        })
    };
    let entries = place(APART);
    assert_eq!(entries, PLACED_FILLED);
    let fields = [("K_FILLED_STEPS", 4), ("K_TEXT_LENGTH", 33)];
    check_fields(names, "PLACE", &entries, &fields);
    assert_eq!(place(b"K,"), [1, 1, 0, 0, 0, 0, 0, 0, 0, 0]);
}

/// The operations whose only field is the length of their text.
fn check_texts(names: &mut Names) {
    let mut check = |operation: &str, text: &str, call: &mut dyn FnMut(&mut [i32]) -> u32| {
        let count = names.take(&format!("{operation}_RESULTS"));
        let entries = written(PAINT, count, call);
        let length = [("TEXT_LENGTH", text.len() as i32)];
        check_fields(names, operation, &entries, &length);
    };
    let mut output = [0; LOAD_BYTES];
    check("LOAD", LOADED, &mut |results| {
        calls::load(7, 2, &mut output, results)
    });
    let mut output = [0; REASONS_BYTES];
    check("REASONS", SENTENCE, &mut |results| {
        calls::reasons(JOB, BROKEN, &mut output, results)
    });
    assert!(output.starts_with(SENTENCE.as_bytes()));
}

fn check_part(names: &mut Names) {
    let count = names.take("PART_NUMBERS");
    let [job, placement] = ["TEXT_JOB", "TEXT_PLACEMENT"].map(|name| names.take(name) as u64);
    let part = |placement: &[u8]| written(77, count, |part| calls::fault(JOB, placement, part));
    let short = b"9,0,1\n13,0\n";
    let fields = [("TEXT", placement), ("START", 6), ("LENGTH", 5)];
    check_fields(names, "PART", &part(short), &fields);
    let in_job = written(77, count, |part| calls::fault(b"J\n", short, part));
    assert_eq!(in_job, [job, 0, 2]);
}
