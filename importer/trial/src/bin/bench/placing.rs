//! Place: heavy jobs and a typical one, with R 1 and with R 2, and a heavy one with many fixed cells.

use crate::clock;
use importer::OUTPUT_BYTES;
use std::hint::black_box;
use trial::generate::legal::{Shape, HEAVY};
use trial::generate::{legal, Random};
use trial::lender::store_words;
use trial::plain::job::Job;
use trial::plain::placement::text_of;
use trial::plain::reader::read_job;
use trial::plain::scorer::verdict;
use trial::plain::search::cheapest;

pub const JOBS: [(&str, Shape); 8] = [
    ("64 cells, 24 tall, dense and wide", HEAVY),
    ("64 cells, 24 tall, dense and narrow", narrow(64, 24)),
    ("64 cells, 12 tall, widths 1 and 2", narrow(64, 12)),
    ("64 cells, 8 tall, widths 1 and 2", narrow(64, 8)),
    ("64 single cells in one row", SINGLES),
    (
        "60 single cells in one row",
        Shape {
            rows: 1,
            ..narrow(60, 0)
        },
    ),
    ("64 cells, 6 tall, D 3", FEW_TALL),
    ("16 cells, 4 tall", TYPICAL),
];

/// Those with R 2.
pub const BY_TWO: [(&str, Shape); 7] = [
    ("64 cells, 24 tall, dense and wide", HEAVY),
    (
        "64 cells, 24 tall, widths 1 to 3",
        Shape {
            most_width: 3,
            ..narrow(64, 24)
        },
    ),
    ("64 cells, 12 tall, widths 1 and 2", narrow(64, 12)),
    ("64 cells, 8 tall, widths 1 and 2", narrow(64, 8)),
    ("64 single cells in one row", SINGLES),
    ("64 cells, 6 tall, D 3", FEW_TALL),
    ("16 cells, 4 tall", TYPICAL),
];

const SINGLES: Shape = Shape {
    rows: 1,
    ..narrow(64, 0)
};

const FEW_TALL: Shape = Shape {
    tall: 6,
    displacement: 3,
    ..HEAVY
};

const TYPICAL: Shape = Shape {
    cells: 16,
    tall: 4,
    ..HEAVY
};

/// Cells of widths 1 and 2 without gaps.
const fn narrow(cells: usize, tall: usize) -> Shape {
    Shape {
        cells,
        tall,
        most_width: 2,
        gaps: &[0, 0, 2],
        ..HEAVY
    }
}

/// Which cells of a job are fixed.
#[derive(Clone, Copy)]
enum Fixed {
    SecondSingle,
    Tall,
    ThreeOfFour,
}

const FIXED: [(&str, Fixed); 3] = [
    ("every second single cell fixed", Fixed::SecondSingle),
    ("all tall cells fixed", Fixed::Tall),
    ("three of four cells fixed", Fixed::ThreeOfFour),
];

pub fn compare() {
    for (what, shape) in &JOBS {
        let job = legal::job(&mut Random::new(2), shape);
        compare_on(&format!("Place, {what}"), &job);
    }
    let job = legal::job(&mut Random::new(2), &narrow(64, 24));
    println!("64 cells, 24 tall, dense and narrow:");
    for (what, fixed) in FIXED {
        compare_on(&format!("Place, {what}"), &with_fixed(&job, fixed));
    }
    println!("With R 2:");
    for (what, shape) in &BY_TWO {
        let mut job = legal::job(&mut Random::new(2), shape);
        job.reordering = 2;
        compare_on(&format!("Place, {what}"), &job);
    }
}

/// The job with cells fixed at their given sites: its given rows stay a legal placement.
fn with_fixed(job: &Job, fixed: Fixed) -> Job {
    let mut job = job.clone();
    let mut singles = 0;
    for (at, cell) in job.cells.iter_mut().enumerate() {
        singles += usize::from(!cell.is_tall());
        cell.fixed = match fixed {
            Fixed::SecondSingle => !cell.is_tall() && singles % 2 == 0,
            Fixed::Tall => cell.is_tall(),
            Fixed::ThreeOfFour => at % 4 != 0,
        };
    }
    job
}

/// Both read the text and end with the placement's text and numbers.
fn compare_on(what: &str, job: &Job) {
    clock::compare(what, by_refiner(job), by_plain(job));
}

/// Places a job by the refiner.
pub fn by_refiner(job: &Job) -> impl FnMut() {
    let mut store = vec![0; store_words(job)];
    let job = job.text();
    let mut output = [0; OUTPUT_BYTES];
    let mut results = [0; 10];
    move || {
        let (store, output) = black_box((&mut store, &mut output));
        importer::calls::place(black_box(&job), store, output, black_box(&mut results));
    }
}

/// Places a job by the plain search. Place leaves its store all zero, so as large a one is cleared.
pub fn by_plain(job: &Job) -> impl FnMut() {
    let mut store = vec![0_u32; store_words(job)];
    let job = job.text();
    move || {
        black_box(&mut store).fill(0);
        let job = read_job(black_box(&job)).ok();
        let placement = job.as_ref().and_then(cheapest);
        if let (Some(job), Some(placement)) = (job, placement) {
            black_box((text_of(&placement), verdict(&job, &placement).ok()));
        }
    }
}
