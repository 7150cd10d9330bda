//! A job's file, and the files that belong to it.

use std::ffi::{OsStr, OsString};
use std::path::{Path, PathBuf};

/// What a job's file name ends with; a name that ends otherwise is taken whole.
const JOB: &str = "job";

/// A job to be placed. `NAME.job` has its answer in `NAME.out`, beside it.
#[derive(Clone, Debug, PartialEq, Eq)]
pub struct Task {
    /// The job's file.
    pub job: PathBuf,
    /// Where a placement stands that is to be compared, if one does.
    pub placement: PathBuf,
    /// Where the answer goes.
    pub output: PathBuf,
    /// Where a picture goes, if one is wanted.
    pub picture: Option<PathBuf>,
}

impl Task {
    /// The task of a job's file.
    pub fn of(job: impl Into<PathBuf>) -> Task {
        let job = job.into();
        let name = name_of(&job);
        let beside = |end: &str| job.with_file_name(with_end(&name, end));
        Task {
            placement: beside("placement"),
            output: beside("out"),
            picture: None,
            job,
        }
    }

    /// NAME: the file's name less `.job`.
    pub fn name(&self) -> OsString {
        name_of(&self.job)
    }
}

fn name_of(job: &Path) -> OsString {
    let name = match is_job(job) {
        true => job.file_stem(),
        false => job.file_name(),
    };
    name.unwrap_or_default().to_os_string()
}

/// Whether the file's name is that of a job.
pub(super) fn is_job(path: &Path) -> bool {
    path.extension() == Some(OsStr::new(JOB))
}

/// A name with a dot and an end behind it.
pub(super) fn with_end(name: &OsStr, end: &str) -> OsString {
    let mut name = name.to_os_string();
    name.push(".");
    name.push(end);
    name
}

#[cfg(test)]
mod tests {
    use super::*;

    #[test]
    fn files_stand_beside_the_job() {
        let files = |job: &str| {
            let task = Task::of(job);
            [task.placement, task.output].map(|path| path.display().to_string())
        };
        assert_eq!(files("a/b.v1.job"), ["a/b.v1.placement", "a/b.v1.out"]);
        assert_eq!(files("b.v1"), ["b.v1.placement", "b.v1.out"]);
        assert_eq!(files("b.out"), ["b.out.placement", "b.out.out"]);
        assert_eq!(files(".job"), [".job.placement", ".job.out"]);
    }
}
