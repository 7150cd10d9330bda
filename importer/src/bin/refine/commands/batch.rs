//! `refine batch`: many jobs, their answers to files, and what came of all of them.

use crate::input::{Text, DASH};
use crate::memory::none_for;
use crate::mistake::Mistake;
use crate::progress::Progress;
use crate::report::Report;
use crate::words::{Switch, Words};
use importer::batch::{self, shown, Done, Failure, Gathered, Summary, Task};
use importer::{Refiner, STORE_WORDS};
use std::ffi::{OsStr, OsString};
use std::fs;
use std::io::Stderr;
use std::path::{Path, PathBuf};
use std::thread;
use std::time::Instant;

const THREADS: Switch = Switch {
    words: &["-j", "--threads"],
    takes: Some("N"),
    does: "use N threads, 1 to 1024; without it as many as the machine runs at once",
};

const CSV: Switch = Switch {
    words: &["--csv"],
    takes: Some("FILE"),
    does: "write what came of the jobs to FILE, a line for each",
};

const HTML: Switch = Switch {
    words: &["--html"],
    takes: Some("DIR"),
    does: "write a page with a table of the jobs and a picture of each to DIR",
};

pub const OPTIONS: &[Switch] = &[THREADS, CSV, HTML];

/// The most threads that may be asked for.
const MOST_THREADS: usize = 1024;

/// The page's file in its folder.
const PAGE: &str = "index.html";

/// What came of a task.
type Came = Result<Done, Failure>;

pub fn run(words: &[OsString]) -> Result<Report, Mistake> {
    let words = Words::of(words, OPTIONS)?;
    let threads = threads(&words)?;
    let (csv, folder) = (words.path(&CSV)?, words.path(&HTML)?);
    let mut gathered = batch::gather(paths(&words.arguments)?);
    let besides: Vec<&Path> = csv.into_iter().collect();
    if let Some(clash) = batch::clash(&gathered.tasks, &besides) {
        return Err(Mistake::Usage(clash.to_string()));
    }
    if let Some(folder) = folder {
        make_folder(folder)?;
        gathered.tasks = batch::with_pictures(gathered.tasks, folder);
    }
    let refiners = refiners(threads.min(gathered.tasks.len()))?;
    let mut progress = Progress::new(gathered.tasks.len());
    tell_of_folders(&mut progress, &gathered);
    let start = Instant::now();
    let results = batch::run(&gathered.tasks, refiners, &mut progress)
        .map_err(|error| Mistake::Memory(format!("cannot start a thread: {error}")))?;
    let time = start.elapsed();
    progress.clear();
    let unwritten = write_all(&gathered.tasks, &results, csv, folder);
    for failure in &unwritten {
        progress.tell(&failure.to_string());
    }
    let summary = Summary::of(&results);
    let failed = summary.failed + gathered.failures.len() + unwritten.len();
    let report = Report::answer(summary.lines(time));
    Ok(match failed {
        0 => report,
        _ => report.lacking(),
    })
}

fn make_folder(folder: &Path) -> Result<(), Mistake> {
    fs::create_dir_all(folder).map_err(|error| {
        let name = shown(folder.as_os_str());
        Mistake::Input(format!("cannot make the folder {name}: {error}"))
    })
}

/// Says which folders have no jobs, or cannot be read.
fn tell_of_folders(progress: &mut Progress<Stderr>, gathered: &Gathered) {
    for folder in &gathered.empty {
        let name = shown(folder.as_os_str());
        progress.tell(&format!("there is no *.job in {name}"));
    }
    for failure in &gathered.failures {
        progress.tell(&failure.to_string());
    }
}

/// How many threads are asked for.
fn threads(words: &Words) -> Result<usize, Mistake> {
    let Some(number) = words.number(&THREADS)? else {
        return Ok(thread::available_parallelism().map_or(1, usize::from));
    };
    match usize::try_from(number) {
        Ok(number @ 1..=MOST_THREADS) => Ok(number),
        _ => Err(Mistake::Usage(format!(
            "{number} threads; 1 to {MOST_THREADS} are allowed"
        ))),
    }
}

/// The paths that are named, those of a list in the place of its `-`.
fn paths(arguments: &[&OsStr]) -> Result<Vec<PathBuf>, Mistake> {
    let lists = arguments.iter().filter(|word| **word == DASH).count();
    match (arguments, lists) {
        ([], _) => return Err(Mistake::count(arguments)),
        (_, 0 | 1) => {}
        _ => {
            let twice = "only one list can be standard input";
            return Err(Mistake::Usage(twice.into()));
        }
    }
    let mut paths = Vec::new();
    for word in arguments {
        if *word == DASH {
            paths.extend(listed()?);
        } else {
            paths.push(PathBuf::from(word));
        }
    }
    Ok(paths)
}

/// The paths of a list on standard input, one a line; empty lines name none.
fn listed() -> Result<Vec<PathBuf>, Mistake> {
    let list = Text::of_standard_input("the paths of jobs")?.bytes;
    let lines = list.split(|&byte| byte == b'\n');
    let lines = lines.filter(|line| !line.is_empty());
    lines.map(path_of).collect()
}

#[cfg(unix)]
fn path_of(line: &[u8]) -> Result<PathBuf, Mistake> {
    use std::os::unix::ffi::OsStrExt;
    Ok(PathBuf::from(OsStr::from_bytes(line)))
}

#[cfg(not(unix))]
fn path_of(line: &[u8]) -> Result<PathBuf, Mistake> {
    match std::str::from_utf8(line) {
        Ok(path) => Ok(PathBuf::from(path)),
        Err(error) => Err(Mistake::Input(format!("a path in the list: {error}"))),
    }
}

/// A refiner for each thread.
fn refiners(threads: usize) -> Result<Vec<Refiner>, Mistake> {
    let refiner = |_| Refiner::try_new();
    let refiners: Result<Vec<Refiner>, _> = (0..threads).map(refiner).collect();
    refiners.map_err(|_| none_for("the store", STORE_WORDS * size_of::<u32>()))
}

/// Writes what is wanted besides the answers, and returns what could not be.
fn write_all(
    tasks: &[Task],
    results: &[Came],
    csv: Option<&Path>,
    folder: Option<&Path>,
) -> Vec<Failure> {
    let csv = csv.map(|file| batch::write(file, &batch::csv(tasks, results)));
    let page = folder.map(|folder| {
        let page = batch::page(tasks, results);
        batch::write(&folder.join(PAGE), page.as_bytes())
    });
    let written = [csv, page].into_iter().flatten();
    written.filter_map(Result::err).collect()
}
