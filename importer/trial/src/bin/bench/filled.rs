//! Place on jobs whose filled steps have a weight of their own (A7), beside the same jobs led by `J` and
//! beside plain Rust.

use crate::clock;
use crate::placing::{by_plain, by_refiner, BY_TWO, JOBS};
use trial::generate::legal::HEAVY;
use trial::generate::{legal, Random};
use trial::plain::job::Job;

/// Weights beside that of other steps, which is 100 in all jobs.
const WEIGHTS: [u16; 5] = [0, 30, 100, 300, 1000];

/// The weight in most lines.
const FILLED: u16 = 30;

pub fn show() {
    let [led_by_j, led_by_k, plain] = ["J", "K", "plain, K"];
    println!(
        "{:<36}{led_by_j:>12}{led_by_k:>12}{:>7}{plain:>12}{:>7}",
        "steps 100, filled ones 30", "K / J", "ratio"
    );
    for (what, shape) in &JOBS {
        let job = legal::job(&mut Random::new(2), shape);
        show_one(what, &job, FILLED);
    }
    println!("With R 2:");
    for (what, shape) in &BY_TWO {
        let mut job = legal::job(&mut Random::new(2), shape);
        job.reordering = 2;
        show_one(what, &job, FILLED);
    }
    println!("64 cells, 24 tall, dense and wide, steps 100:");
    let job = legal::job(&mut Random::new(2), &HEAVY);
    for filled in WEIGHTS {
        show_one(&format!("filled {filled}"), &job, filled);
    }
}

/// A line with the refiner's times of both jobs and their ratio, plain Rust's of the second, and the
/// refiner's as a multiple of that.
fn show_one(what: &str, job: &Job, filled: u16) {
    let mut led_by_k = job.clone();
    led_by_k.weights.filled = Some(filled);
    let mut one_weight = by_refiner(job);
    let mut two_weights = by_refiner(&led_by_k);
    let mut plain = by_plain(&led_by_k);
    let calls: [&mut dyn FnMut(); 3] = [&mut one_weight, &mut two_weights, &mut plain];
    let [one_weight, two_weights, plain] = clock::best_in_turn(calls);
    let growth = two_weights / one_weight;
    let ratio = two_weights / plain;
    println!(
        "{what:<36}{one_weight:>9.2} us{two_weights:>9.2} us{growth:>7.2}{plain:>9.2} us{ratio:>7.2}"
    );
}
