//! Score and Reasons: a job of 64 cells in two rows, with its given rows, and with a mark on each
//! cell that none may have.

use crate::clock;
use importer::calls;
use std::hint::black_box;
use trial::generate::{legal, Random};
use trial::plain::placement::{given_rows, text_of};
use trial::plain::reasons::{reasons, OUTPUT};
use trial::plain::scorer::score;

pub fn compare() {
    let job = legal::job(&mut Random::new(1), &legal::HEAVY);
    let mut poses = given_rows(&job);
    let given = text_of(&poses);
    for pose in &mut poses {
        pose.mark = 2;
    }
    let job = job.text();
    compare_score(&job, &given);
    compare_reasons(&job, &text_of(&poses));
}

fn compare_score(job: &[u8], placement: &[u8]) {
    let mut results = [0; 10];
    let refiner = || {
        let (job, placement) = black_box((job, placement));
        calls::score(job, placement, black_box(&mut results));
    };
    let plain = || {
        let (job, placement) = black_box((job, placement));
        black_box(score(job, placement)).ok();
    };
    clock::compare("Score, 64 cells in two rows", refiner, plain);
}

fn compare_reasons(job: &[u8], placement: &[u8]) {
    let mut output = [0; OUTPUT];
    let mut results = [0; 3];
    let refiner = || {
        let (job, placement) = black_box((job, placement));
        calls::reasons(job, placement, black_box(&mut output), &mut results);
    };
    let plain = || {
        let (job, placement) = black_box((job, placement));
        black_box(reasons(job, placement, OUTPUT)).ok();
    };
    clock::compare("Reasons, all of 64 cells named", refiner, plain);
}
