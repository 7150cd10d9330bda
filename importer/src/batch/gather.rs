//! Tasks from paths: a job's file, or a folder of them.

use super::failure::{shown, Failure};
use super::task::{is_job, Task};
use std::collections::HashMap;
use std::fmt;
use std::fs;
use std::io;
use std::path::{Path, PathBuf};

/// What paths lead to.
#[derive(Debug, Default)]
pub struct Gathered {
    /// In the order of the paths, those of a folder in the order of their names.
    pub tasks: Vec<Task>,
    /// The folders in which there is no `*.job`.
    pub empty: Vec<PathBuf>,
    /// The folders that could not be read.
    pub failures: Vec<Failure>,
}

/// The tasks of paths. What is not a folder is a job's file, there or not.
pub fn gather(paths: impl IntoIterator<Item = impl AsRef<Path>>) -> Gathered {
    let mut gathered = Gathered::default();
    for path in paths {
        let path = path.as_ref();
        if !path.is_dir() {
            gathered.tasks.push(Task::of(path));
            continue;
        }
        match jobs_in(path) {
            Ok(jobs) if jobs.is_empty() => gathered.empty.push(path.into()),
            Ok(jobs) => gathered.tasks.extend(jobs.into_iter().map(Task::of)),
            Err(error) => {
                let failure = Failure::cannot("read", path, error);
                gathered.failures.push(failure);
            }
        }
    }
    gathered
}

/// The jobs' files in a folder, in the order of their names.
fn jobs_in(folder: &Path) -> io::Result<Vec<PathBuf>> {
    let mut jobs = Vec::new();
    for entry in fs::read_dir(folder)? {
        let path = entry?.path();
        if is_job(&path) && !path.is_dir() {
            jobs.push(path);
        }
    }
    jobs.sort();
    Ok(jobs)
}

/// A file that would be written twice, or over something that is read.
#[derive(Clone, Debug, PartialEq, Eq)]
pub enum Clash {
    /// Two jobs, or a job and what is written besides, with the file that both have.
    Output(PathBuf, PathBuf, PathBuf),
    /// A job or a placement.
    Input(PathBuf),
}

impl fmt::Display for Clash {
    fn fmt(&self, out: &mut fmt::Formatter<'_>) -> fmt::Result {
        let name = |path: &PathBuf| shown(path.as_os_str());
        match self {
            Clash::Output(one, other, file) => {
                let (one, other, file) = (name(one), name(other), name(file));
                write!(out, "{one} and {other} have the same output, {file}")
            }
            Clash::Input(file) => write!(out, "{} would be written over", name(file)),
        }
    }
}

/// A clash of the tasks' files, if there is one, also with what is to be written besides.
pub fn clash(tasks: &[Task], besides: &[&Path]) -> Option<Clash> {
    let mut written = HashMap::new();
    let mut folders = HashMap::new();
    let outputs = tasks.iter().map(|task| (&*task.output, &*task.job));
    let besides = besides.iter().map(|path| (*path, *path));
    for (output, from) in outputs.chain(besides) {
        if let Some(other) = written.insert(place_of(output, &mut folders), from) {
            return Some(Clash::Output(other.into(), from.into(), output.into()));
        }
    }
    let read = tasks.iter().flat_map(|task| [&task.job, &task.placement]);
    let mut read = read.filter(|path| written.contains_key(&place_of(path, &mut folders)));
    read.next().map(|path| Clash::Input(path.clone()))
}

/// A file's place, however its folder is named.
fn place_of(path: &Path, folders: &mut HashMap<PathBuf, PathBuf>) -> PathBuf {
    let folder = match path.parent() {
        Some(folder) if !folder.as_os_str().is_empty() => folder,
        _ => Path::new("."),
    };
    let real = folders
        .entry(folder.to_path_buf())
        .or_insert_with(|| fs::canonicalize(folder).unwrap_or_else(|_| folder.to_path_buf()));
    real.join(path.file_name().unwrap_or_default())
}
