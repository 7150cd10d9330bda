//! Builds a small job, places it and shows what came of it:
//!
//!     cargo run --release --offline --manifest-path importer/Cargo.toml --example place
//!
//! With files behind `--`, it places the jobs in them, one after the other, with one refiner.

use importer::job::{Cell, Header, Job, Layout, Weights};
use importer::{explain, Refiner};
use std::error::Error;
use std::fmt::Write;
use std::{env, fs};

fn main() -> Result<(), Box<dyn Error>> {
    let mut refiner = Refiner::new();
    if env::args_os().len() == 1 {
        print!("{}", report(&mut refiner, &worked().text())?);
    }
    for path in env::args_os().skip(1) {
        print!("{}", report(&mut refiner, &fs::read(path)?)?);
    }
    Ok(())
}

/// The job of README: the cells face each other with different heights, unless the first one is
/// mirrored.
pub fn worked() -> Job {
    let header = Header {
        rows: 1,
        sites: 20,
        displacement: 1,
        reordering: 1,
        weights: Weights {
            step: 100,
            shift: 1,
            mirror: 100,
            swap: 50,
            filled: None,
        },
    };
    let layout = [Layout::single(4, [3, 3, 2, 2])];
    Job::new(header)
        .with(Cell::single(0, 2, layout).mirrorable())
        .with(Cell::single(0, 6, layout))
}

/// The numbers of a cheapest legal placement and how each cell stands, or why there is none.
pub fn report(refiner: &mut Refiner, job: &[u8]) -> Result<String, Box<dyn Error>> {
    let mut report = String::new();
    match refiner.place(job) {
        Ok(answer) => {
            writeln!(report, "{}", answer.numbers())?;
            for (cell, pose) in (1..).zip(answer.poses()?) {
                let mirrored = if pose.mirrored { ", mirrored" } else { "" };
                let (site, layout) = (pose.site, pose.layout);
                writeln!(
                    report,
                    "cell {cell}: site {site}, layout {layout}{mirrored}"
                )?;
            }
        }
        Err(refused) => {
            writeln!(report, "{refused}")?;
            if let Some(words) = explain::job_line(job, &refused) {
                writeln!(report, "{words}")?;
            }
        }
    }
    Ok(report)
}
