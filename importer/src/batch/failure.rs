//! Files that cannot be read or written, and jobs that cannot be placed, in words.

use super::files::LONGEST;
use std::ffi::OsStr;
use std::fmt;
use std::io;
use std::path::{Path, PathBuf};

/// A file that could not be read or written, or whose job could not be placed.
#[derive(Debug)]
pub struct Failure {
    path: PathBuf,
    reason: Reason,
}

#[derive(Debug)]
enum Reason {
    /// What could not be done.
    Cannot(&'static str, io::Error),
    TooLong,
    /// There is no memory for a store of so many bytes.
    NoStore(usize),
}

impl Failure {
    pub(super) fn cannot(act: &'static str, path: &Path, error: io::Error) -> Failure {
        let reason = Reason::Cannot(act, error);
        let path = path.to_path_buf();
        Failure { path, reason }
    }

    pub(super) fn too_long(path: &Path) -> Failure {
        let reason = Reason::TooLong;
        let path = path.to_path_buf();
        Failure { path, reason }
    }

    pub(super) fn no_store(path: &Path, bytes: usize) -> Failure {
        let reason = Reason::NoStore(bytes);
        let path = path.to_path_buf();
        Failure { path, reason }
    }

    /// Whether the file is not there.
    pub(super) fn is_absent(&self) -> bool {
        match &self.reason {
            Reason::Cannot(_, error) => error.kind() == io::ErrorKind::NotFound,
            Reason::TooLong | Reason::NoStore(_) => false,
        }
    }
}

impl fmt::Display for Failure {
    fn fmt(&self, out: &mut fmt::Formatter<'_>) -> fmt::Result {
        let name = shown(self.path.as_os_str());
        match &self.reason {
            Reason::Cannot("open", _) if self.is_absent() => {
                write!(out, "cannot open {name}: there is no such file")
            }
            Reason::Cannot(act, error) => write!(out, "cannot {act} {name}: {error}"),
            Reason::TooLong => write!(out, "{name} is longer than {LONGEST} bytes"),
            Reason::NoStore(bytes) => write!(
                out,
                "cannot place {name}: no memory for the store: {bytes} bytes"
            ),
        }
    }
}

impl std::error::Error for Failure {}

/// A path in which no character moves the cursor.
pub fn shown(path: &OsStr) -> String {
    let mut name = String::new();
    for letter in path.to_string_lossy().chars() {
        if letter.is_control() {
            name.extend(letter.escape_default());
        } else {
            name.push(letter);
        }
    }
    name
}
