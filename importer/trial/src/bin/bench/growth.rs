//! How Place's time grows with cells, tall cells, D and R, beside the table words that it fills.

use crate::clock;
use crate::placing::by_refiner;
use trial::generate::legal::{Shape, HEAVY};
use trial::generate::{legal, Random};
use trial::plain::job::Job;
use trial::plain::search::pairs::Pairs;

/// The shape that the others differ from in R and one more number.
const MIDDLE: Shape = Shape {
    tall: 12,
    most_width: 2,
    gaps: &[0, 0, 2],
    ..HEAVY
};

pub fn show() {
    println!(
        "{:>6}{:>6}{:>4}{:>4}{:>14}{:>12}{:>12}",
        "cells", "tall", "D", "R", "table words", "time", "per word"
    );
    let cells = [8, 16, 32, 64].map(|cells| Shape {
        cells,
        tall: cells * 3 / 16,
        ..MIDDLE
    });
    let tall = [0, 2, 4, 8, 16, 24].map(|tall| Shape { tall, ..MIDDLE });
    let displacement = [0, 1, 3, 5, 7].map(|displacement| Shape {
        displacement,
        ..MIDDLE
    });
    let all = [&cells[..], &tall, &displacement];
    for reordering in [1, 2] {
        for group in all {
            group.iter().for_each(|shape| show_one(shape, reordering));
            println!();
        }
    }
    for reordering in [0, 1, 2] {
        show_one(&MIDDLE, reordering);
    }
}

fn show_one(shape: &Shape, reordering: u16) {
    let shape = Shape {
        reordering,
        ..*shape
    };
    let job = legal::job(&mut Random::new(2), &shape);
    let words = table_words(&job);
    let [time] = clock::best_in_turn([&mut by_refiner(&job)]);
    println!(
        "{:>6}{:>6}{:>4}{:>4}{:>14}{:>9.0} us{:>9.2} ns",
        shape.cells,
        shape.tall,
        shape.displacement,
        shape.reordering,
        words,
        time,
        time * 1e3 / words as f64
    );
}

/// How many words of layers, prices, cases and sources Place fills at most; it skips starts that
/// no case has.
fn table_words(job: &Job) -> usize {
    let pairs = Pairs::of(job.reordering.into());
    let count = pairs.list.len();
    let poses = 4 * (2 * usize::from(job.displacement) + 1);
    let talls = job.cells.iter().filter(|cell| cell.is_tall()).count();
    let stretches: usize = [0, 1].iter().map(|&row| row_words(job, row, &pairs)).sum();
    stretches + (talls + 1) * 2 * count * count * poses
}

/// The words of one row's stretches: from its start, and from each tall cell.
fn row_words(job: &Job, row: usize, pairs: &Pairs) -> usize {
    let in_row = job.cells.iter().filter(|cell| cell.rows().contains(&row));
    let tall: Vec<bool> = in_row.map(|cell| cell.is_tall()).collect();
    let talls: Vec<usize> = (0..tall.len()).filter(|&place| tall[place]).collect();
    let last = tall.len();
    let ends = talls.iter().map(|place| place + 1 + pairs.reordering);
    let mut ends = ends.chain([last]);
    let poses = 4 * (2 * usize::from(job.displacement) + 1);
    let block = pairs.list.len() * poses;
    let opening = ends.next().unwrap_or(0);
    // A layer has a block for each lane; a stretch ends with one more, of prices. The walk back
    // fills the layers of one stretch of each stage once more, in one lane, and keeps them.
    let mut words = (opening + 1) * block + 2 * opening * block;
    let lanes = poses.next_multiple_of(16);
    for (place, end) in talls.iter().zip(ends) {
        for pair in 0..pairs.list.len() {
            let placed = pairs.cells_at(*place, pair).unwrap_or(0);
            words += (end.saturating_sub(placed) + 1) * block * lanes;
        }
        words += 2 * (end - place) * block;
    }
    words
}
