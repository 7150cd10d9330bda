//! A thousand dense jobs that each have a legal placement.

use std::path::Path;
use std::{fs, io};
use trial::generate::legal::{Shape, HEAVY};
use trial::generate::{legal, Random};

pub const JOBS: usize = 1000;

/// The jobs' shapes, in turn.
const SHAPES: [Shape; 4] = [HEAVY, narrow(24), narrow(12), narrow(8)];

const fn narrow(tall: usize) -> Shape {
    Shape {
        tall,
        most_width: 2,
        gaps: &[0, 0, 2],
        ..HEAVY
    }
}

/// The jobs' texts.
pub fn jobs() -> Vec<Vec<u8>> {
    let mut random = Random::new(3);
    let shapes = SHAPES.iter().cycle().take(JOBS);
    let job = |shape| legal::job(&mut random, shape).text();
    shapes.map(job).collect()
}

/// Writes jobs to a folder, by their numbers.
pub fn write(jobs: &[Vec<u8>], folder: &Path) -> io::Result<()> {
    fs::create_dir_all(folder)?;
    for (number, job) in jobs.iter().enumerate() {
        fs::write(folder.join(format!("{number:04}.job")), job)?;
    }
    Ok(())
}
