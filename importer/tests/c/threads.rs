//! Many threads may call at the same time, each with its own buffers.

use crate::stack::{job_of, one_row, tall_last};
use importer::{refine, sentence};
use std::thread;

#[test]
fn threads_do_not_disturb_each_other() {
    let side_by_side = |rows| job_of(&rows, 4);
    let jobs = [tall_last(), one_row()].map(side_by_side);
    let alone = jobs.each_ref().map(|job| refine(job.as_bytes()));
    assert!(alone.iter().all(Result::is_ok));
    assert_ne!(alone[0], alone[1]);
    thread::scope(|scope| {
        for at in 0..8 {
            let (job, alone) = (&jobs[at % 2], &alone[at % 2]);
            scope.spawn(move || {
                for _ in 0..4 {
                    assert_eq!(refine(job.as_bytes()), *alone);
                }
            });
        }
    });
}

/// All cells at site 0, where most are shifted too far, and all in a layout that they lack.
#[test]
fn nor_do_those_that_ask_for_sentences() {
    let job = job_of(&tall_last(), 4);
    let placements = ["0,0,0\n", "0,2,0\n"].map(|line| line.repeat(64));
    let told = |placement: &String| sentence(job.as_bytes(), placement.as_bytes());
    let alone = placements.each_ref().map(told);
    let last = |said: &String| said.ends_with(", cell 64.");
    assert!(alone.iter().flatten().filter(|said| last(said)).count() == 2);
    assert_ne!(alone[0], alone[1]);
    thread::scope(|scope| {
        for at in 0..8 {
            let (placement, alone) = (&placements[at % 2], &alone[at % 2]);
            scope.spawn(move || (0..200).for_each(|_| assert_eq!(told(placement), *alone)));
        }
    });
}
