//! Files read with a limit on their length, and written whole or not at all.

use super::failure::Failure;
use super::task::with_end;
use std::fs::{self, File};
use std::io::{self, Read};
use std::path::Path;

/// The longest text that is taken in. The longest job that is accepted has under 8 KiB.
pub const LONGEST: u64 = 256 << 20;

/// Most texts are shorter than this, and are read at once.
const USUAL: usize = 8 << 10;

/// What a file is called while it is written, behind its name.
const PART: &str = "part";

/// The bytes of a file.
pub(super) fn read(path: &Path) -> Result<Vec<u8>, Failure> {
    let file = File::open(path).map_err(|error| Failure::cannot("open", path, error))?;
    let mut bytes = Vec::new();
    let read = bytes.try_reserve(USUAL).map_err(io::Error::from);
    let read = read.and_then(|()| file.take(LONGEST + 1).read_to_end(&mut bytes));
    match read {
        Err(error) => Err(Failure::cannot("read", path, error)),
        Ok(_) if bytes.len() as u64 > LONGEST => Err(Failure::too_long(path)),
        Ok(_) => Ok(bytes),
    }
}

/// The bytes of a file; none if it is not there.
pub(super) fn read_if_there(path: &Path) -> Result<Option<Vec<u8>>, Failure> {
    match read(path) {
        Err(failure) if failure.is_absent() => Ok(None),
        read => read.map(Some),
    }
}

/// Writes a file whole or not at all: beside its place first, and then it takes that. What an
/// interrupted run left beside the place is replaced. A pipe, a device or a link has bytes written
/// to it as they are.
pub fn write(path: &Path, bytes: &[u8]) -> Result<(), Failure> {
    let is_plain = match fs::symlink_metadata(path) {
        Ok(found) => found.is_file(),
        Err(_) => true,
    };
    let written = match is_plain {
        true => write_beside(path, bytes),
        false => fs::write(path, bytes),
    };
    written.map_err(|error| Failure::cannot("write", path, error))
}

fn write_beside(path: &Path, bytes: &[u8]) -> io::Result<()> {
    let name = path.file_name().unwrap_or_default();
    let part = path.with_file_name(with_end(name, PART));
    let written = fs::write(&part, bytes).and_then(|()| fs::rename(&part, path));
    if written.is_err() {
        // Where it was not even begun, there is nothing to remove.
        let _ = fs::remove_file(&part);
    }
    written
}
