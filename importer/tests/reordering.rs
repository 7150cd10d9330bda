//! Reordering by two: jobs with R 2, by each way of having a job placed, and the store they need.

use importer::{place, read, refine, store_words, Numbers, Refined, Refiner, Refused};
use importer::{OUTPUT_BYTES, STORE_WORDS, STORE_WORDS_BY_TWO};
use std::io::Write;
use std::process::{Command, Stdio};

/// Both rows are full, so the tall cell 3 stands at 4 with cell 4 before it, or at 0 with cell 4
/// behind it.
///
/// At 0 it is the first of three in row 0, and in file order the last: that takes R 2. Behind it
/// cells 1 and 2 meet equal heights, and so does cell 4, for 2 + 2 + 4 + 2 sites shifted; 2 before
/// 1 has steps. At 4 cell 4 goes before it, which takes R 1, four sites to the left. Heights 3 3 of
/// cell 2 then face 5 5, and 4 5 of cell 4 face 4 4: three steps; 2 before 1 has more. In file
/// order row 0 asks for the one place and row 1 for the other.
fn job(reordering: u32) -> Vec<u8> {
    let header = format!("J,2,6,4,{reordering},100,1,100,50\n");
    let cells = "C,0,0,0,1,2,1,1,2,2\n\
                 C,0,2,0,1,2,2,2,3,3\n\
                 C,2,4,0,1,2,5,5,1,1,4,4,6,6\n\
                 C,1,4,0,1,4,6,6,4,5\n";
    (header + cells).into_bytes()
}

fn numbers(steps: u32, shifted: u32, drift: i32) -> Numbers {
    Numbers {
        steps,
        shifted,
        mirrored: 0,
        changed: 0,
        cost: 100 * steps + shifted,
        drift,
        filled: None,
    }
}

/// What is answered of the job with each R.
fn answers() -> [Result<Refined, Refused>; 3] {
    let none = Refused { number: 8, line: 0 };
    let by_one = Refined {
        numbers: numbers(3, 4, -100),
        text: b"0,0,0\n2,0,0\n4,0,0\n0,0,0\n".into(),
    };
    let by_two = Refined {
        numbers: numbers(0, 10, -50),
        text: b"2,0,0\n4,0,0\n0,0,0\n2,0,0\n".into(),
    };
    [Err(none), Ok(by_one), Ok(by_two)]
}

#[test]
fn refine_lends_what_the_job_needs() {
    for (reordering, answer) in (0..).zip(answers()) {
        assert_eq!(refine(&job(reordering)), answer, "R {reordering}");
    }
}

/// A refiner answers each job alike, whatever the R of the one before.
#[test]
fn a_refiner_takes_jobs_with_each_reordering_in_turn() {
    let mut refiner = Refiner::new();
    let answers = answers();
    for reordering in [1, 2, 1, 0, 2, 2, 0, 1] {
        let placed = refiner.place(&job(reordering));
        let placed = placed.map(|answer| answer.to_refined());
        assert_eq!(placed, answers[reordering as usize], "R {reordering}");
    }
}

#[test]
fn a_refiner_takes_memory_before_it_places() {
    let mut refiner = Refiner::new();
    for (reordering, answer) in (0..).zip(answers()) {
        assert_eq!(refiner.try_reserve(&job(reordering)), Ok(()));
        let placed = refiner.place(&job(reordering));
        assert_eq!(placed.map(|answer| answer.to_refined()), answer);
    }
}

/// The same job with a weight of its own for filled steps, of which a full row has none.
fn weighing_filled(reordering: u32) -> Vec<u8> {
    let job = String::from_utf8(job(reordering)).expect("a job is a text");
    let job = job.replacen('J', "K", 1).replacen(",50\n", ",50,9\n", 1);
    job.into_bytes()
}

#[test]
fn with_filled_steps_jobs_are_lent_the_same() {
    let mut refiner = Refiner::new();
    for (reordering, answer) in (0..).zip(answers()) {
        let answer = answer.map(|mut refined| {
            refined.numbers.filled = Some(0);
            refined
        });
        let job = weighing_filled(reordering);
        assert_eq!(refine(&job), answer, "R {reordering}");
        assert_eq!(refiner.try_reserve(&job), Ok(()));
        let placed = refiner.place(&job).map(|answer| answer.to_refined());
        assert_eq!(placed, answer, "R {reordering}");
    }
    let mut store = vec![0; STORE_WORDS_BY_TWO - 1];
    let short = Refused { number: 6, line: 0 };
    assert_eq!(place(&weighing_filled(2), &mut store, &mut []), Err(short));
}

/// What Place leaves of a job in a store of so many words, none of them zero at first, and whether
/// all of these are zero then, or none.
fn lent(reordering: u32, words: usize) -> (Result<Refined, Refused>, [bool; 2]) {
    let mut store = vec![7; words];
    let mut output = [0; OUTPUT_BYTES];
    let placed = place(&job(reordering), &mut store, &mut output);
    let answer = placed.map(|placed| Refined {
        numbers: placed.numbers,
        text: output[..placed.text_length].to_vec(),
    });
    let all = |word: u32| store.iter().all(|&stored| stored == word);
    (answer, [all(0), all(7)])
}

#[test]
fn the_store_is_measured_by_the_reordering() {
    let [none, by_one, by_two] = answers();
    let (cleared, kept) = ([true, false], [false, true]);
    let short = Err(Refused { number: 6, line: 0 });
    assert_eq!(lent(2, 4_194_303), (short.clone(), kept));
    assert_eq!(lent(2, 4_194_304), (by_two.clone(), cleared));
    assert_eq!(lent(2, 4_194_305), (by_two, cleared));
    assert_eq!(lent(2, 1_048_576), (short.clone(), kept));
    assert_eq!(lent(1, 1_048_575), (short.clone(), kept));
    assert_eq!(lent(1, 1_048_576), (by_one.clone(), cleared));
    assert_eq!(lent(1, 4_194_303), (by_one, cleared));
    assert_eq!(lent(0, 1_048_575), (short, kept));
    assert_eq!(lent(0, 1_048_576), (none, cleared));
}

#[test]
fn reordering_by_three_is_out_of_range() {
    let range = Refused { number: 2, line: 1 };
    assert_eq!(read(&job(2)).map(|read| read.cells), Ok(4));
    assert_eq!(read(&job(3)), Err(range));
    assert_eq!(refine(&job(3)), Err(range));
    assert_eq!(place(&job(3), &mut [], &mut []), Err(range));
}

#[test]
fn the_first_line_tells_the_words() {
    assert_eq!((STORE_WORDS, STORE_WORDS_BY_TWO), (1_048_576, 4_194_304));
    let needs = [0, 1, 2].map(|reordering| store_words(&job(reordering)));
    assert_eq!(needs, [STORE_WORDS, STORE_WORDS, STORE_WORDS_BY_TWO]);
    // Lines behind the first do not matter, and its lead may be K.
    assert_eq!(
        store_words(b"J,1,20,1,2,100,1,100,50\nC\n"),
        STORE_WORDS_BY_TWO
    );
    let filled = [0, 1, 2].map(|reordering| store_words(&weighing_filled(reordering)));
    assert_eq!(filled, needs);
    // None of these is a first line that can be read.
    for text in [
        "",
        "\n",
        "J,1,20,1,2,100,1,100,50",
        "J,1,20,1,2,100,1,100\n",
        "J,1,20,1,2,100,1,100,50,2\n",
        "K,1,20,1,2,100,1,100,50\n",
        "K,1,20,1,2,100,1,100,50,2,2\n",
        "K,1,20,1,2,100,1,100,50,1001\n",
        "KJ,1,20,1,2,100,1,100,50,2\n",
        "J,1,20,1,02,100,1,100,50\n",
        "J,3,20,1,2,100,1,100,50\n",
        "J,1,20,1,3,100,1,100,50\n",
        "C,0,2,1,2,4,3,3,2,2\n",
        "2,2,2,2,2,2,2,2,2\n",
    ] {
        assert_eq!(store_words(text.as_bytes()), STORE_WORDS, "{text:?}");
    }
}

/// What the program prints of a job on standard input.
fn printed(job: &[u8]) -> String {
    let mut program = Command::new(env!("CARGO_BIN_EXE_refine"));
    let program = program.stdin(Stdio::piped()).stdout(Stdio::piped());
    let mut child = program
        .stderr(Stdio::null())
        .spawn()
        .expect("refine starts");
    let mut stdin = child.stdin.take().expect("standard input is a pipe");
    stdin.write_all(job).expect("refine reads its input");
    drop(stdin);
    let output = child.wait_with_output().expect("refine ends");
    String::from_utf8(output.stdout).expect("an answer is a text")
}

#[test]
fn the_program_prints_the_answer() {
    let by_one = "304,3,4,0,0,-100\n0,0,0\n2,0,0\n4,0,0\n0,0,0\n";
    let by_two = "10,0,10,0,0,-50\n2,0,0\n4,0,0\n0,0,0\n2,0,0\n";
    let answers = ["refused,8,0\n", by_one, by_two, "refused,2,1\n"];
    for (reordering, answer) in (0..).zip(answers) {
        assert_eq!(printed(&job(reordering)), answer, "R {reordering}");
    }
}
