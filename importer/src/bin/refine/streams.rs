//! Standard input and standard output as they were handed over.
//!
//! The standard library is lenient with them: a stream that is closed is opened as `/dev/null` before
//! `main`, and a read or write that the stream does not allow counts as an end or as done. So a
//! closed input would be an empty job, and an answer to a closed output would be lost without a
//! word. Here a closed stream is an error, and a forbidden read or write is one too.

use std::fs::File;
use std::io;
use std::os::fd::AsFd;

/// Standard input, to read from.
pub fn input() -> io::Result<File> {
    given(0, io::stdin())
}

/// Standard output, to write to.
pub fn output() -> io::Result<File> {
    given(1, io::stdout())
}

fn given(number: usize, stream: impl AsFd) -> io::Result<File> {
    if at_start::was_closed(number) {
        return Err(io::Error::other("it is closed"));
    }
    Ok(File::from(stream.as_fd().try_clone_to_owned()?))
}

/// Which streams were closed, looked at before the standard library opens them.
#[cfg(target_os = "linux")]
mod at_start {
    use std::fs;
    use std::io;
    use std::sync::atomic::{AtomicBool, Ordering};

    /// Where each open file of the program has an entry by its number, and the entries of standard
    /// input and standard output.
    const OPEN_FILES: &str = "/proc/self/fd";
    const ENTRIES: [&str; 2] = ["/proc/self/fd/0", "/proc/self/fd/1"];

    static CLOSED: [AtomicBool; 2] = [const { AtomicBool::new(false) }; 2];

    /// The functions of this section run before the program's start, and so before the standard
    /// library's.
    #[used]
    #[link_section = ".init_array"]
    static AT_START: extern "C" fn() = look;

    extern "C" fn look() {
        // Without the folder nothing is known, and the streams count as open.
        if fs::symlink_metadata(OPEN_FILES).is_err() {
            return;
        }
        for (closed, entry) in CLOSED.iter().zip(ENTRIES) {
            let missing = |error: io::Error| error.kind() == io::ErrorKind::NotFound;
            let entry = fs::symlink_metadata(entry);
            closed.store(entry.is_err_and(missing), Ordering::Relaxed);
        }
    }

    pub fn was_closed(number: usize) -> bool {
        let closed = CLOSED.get(number);
        closed.is_some_and(|closed| closed.load(Ordering::Relaxed))
    }
}

#[cfg(not(target_os = "linux"))]
mod at_start {
    /// A closed stream cannot be told from `/dev/null` here.
    pub fn was_closed(_: usize) -> bool {
        false
    }
}
