//! Read: a job of 64 cells, and texts of 10 MB.

use crate::clock;
use std::hint::black_box;
use trial::generate::{legal, Random};
use trial::plain::reader::read_job;

const LONG: usize = 10_000_000;

pub fn compare() {
    let job = legal::job(&mut Random::new(1), &legal::HEAVY);
    compare_on("Read, 64 cells", &job.text());
    compare_on("Read, 10 MB, damaged at its end", &long_line(b"x\n"));
    compare_on("Read, 10 MB, row out of range", &long_line(b"\n"));
}

fn compare_on(what: &str, text: &[u8]) {
    let mut results = [0; 3];
    let refiner = || {
        importer::calls::read(black_box(text), black_box(&mut results));
    };
    let plain = || {
        black_box(read_job(black_box(text))).ok();
    };
    clock::compare(what, refiner, plain);
}

/// A job whose one cell line goes on for 10 MB, in a row that is out of range: the answer hangs
/// on its last bytes.
fn long_line(end: &[u8]) -> Vec<u8> {
    let mut text = b"J,1,20,1,1,100,1,100,50\nC,9".to_vec();
    text.extend(b",12,345,6789,0".iter().cycle().take(LONG));
    text.extend_from_slice(end);
    text
}
