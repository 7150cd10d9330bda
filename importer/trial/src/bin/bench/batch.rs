//! A thousand dense jobs as `refine batch` does them: one thread beside the sum of the times of
//! Place alone, and two threads beside one.

use crate::clock::processor_time;
use crate::dense::{self, JOBS};
use importer::batch::{gather, run, Done, Failure, Summary, Task, Watch};
use importer::Refiner;
use std::fs;
use std::io;
use std::path::{Path, PathBuf};
use std::time::{Duration, Instant};

const ROUNDS: usize = 5;

/// A watch that says nothing.
struct Quiet;

impl Watch for Quiet {
    fn done(&mut self, _: &Task, _: &Result<Done, Failure>) {}
}

/// A folder that goes away with its files.
struct Folder(PathBuf);

impl Drop for Folder {
    fn drop(&mut self) {
        // What cannot be removed stays in the folder for temporary files.
        let _ = fs::remove_dir_all(&self.0);
    }
}

/// How long something took: by the clock on the wall, and of processors.
#[derive(Clone, Copy)]
struct Took {
    wall: Duration,
    processor: Duration,
}

impl Took {
    /// The time of a call.
    fn of<T>(call: impl FnOnce() -> T) -> (T, Took) {
        let (wall, processor) = (Instant::now(), processor_time());
        let value = call();
        let took = Took {
            wall: wall.elapsed(),
            processor: processor_time() - processor,
        };
        (value, took)
    }

    /// The lesser of both times.
    fn least(self, other: Took) -> Took {
        Took {
            wall: self.wall.min(other.wall),
            processor: self.processor.min(other.processor),
        }
    }
}

/// Shows the best of some rounds: Place alone, one thread, two threads.
pub fn show() -> io::Result<()> {
    let name = format!("refiner-bench-{}", std::process::id());
    let folder = Folder(std::env::temp_dir().join(name));
    let jobs = dense::jobs();
    let mut rounds = Vec::new();
    for round in 0..ROUNDS {
        // A folder of its own for each: file systems take longer where files were just removed.
        let batch_by = |threads: usize| {
            let folder = folder.0.join(format!("{round}-{threads}"));
            dense::write(&jobs, &folder)?;
            batch(&folder, threads)
        };
        rounds.push([place_all(&jobs), batch_by(1)?, batch_by(2)?]);
    }
    let best = |at: usize| rounds.iter().map(|round| round[at]).reduce(Took::least);
    let heads = ["wall", "processor", "wall", "proc."];
    let [wall, processor, by_wall, by_processor] = heads;
    println!(
        "{:<26}{wall:>10}{processor:>12}{by_wall:>8}{by_processor:>8}",
        "1,000 jobs"
    );
    let names = [
        "Place alone, one by one",
        "batch, one thread",
        "batch, two threads",
    ];
    for (at, name) in names.iter().enumerate() {
        if let (Some(took), Some(alone)) = (best(at), best(0)) {
            show_one(name, took, alone);
        }
    }
    Ok(())
}

/// A line with both times, and both as multiples of those of Place alone.
fn show_one(name: &str, took: Took, alone: Took) {
    let [wall, processor] = [took.wall, took.processor].map(|time| time.as_secs_f64());
    let by_wall = wall / alone.wall.as_secs_f64();
    let by_processor = processor / alone.processor.as_secs_f64();
    println!("{name:<26}{wall:>8.3} s{processor:>10.3} s{by_wall:>8.3}{by_processor:>8.3}");
}

/// Places all jobs, one by one.
fn place_all(jobs: &[Vec<u8>]) -> Took {
    let mut refiner = Refiner::new();
    let (placed, took) = Took::of(|| jobs.iter().all(|job| refiner.place(job).is_ok()));
    assert!(placed, "a job has no placement");
    took
}

/// Does all jobs of a folder, from its name to the last answer written.
fn batch(folder: &Path, threads: usize) -> io::Result<Took> {
    let (results, took) = Took::of(|| {
        let tasks = gather([folder]).tasks;
        let refiners = (0..threads).map(|_| Refiner::new()).collect();
        run(&tasks, refiners, &mut Quiet)
    });
    let summary = Summary::of(&results?);
    assert_eq!((summary.answered, summary.anew()), (JOBS, JOBS));
    Ok(took)
}
