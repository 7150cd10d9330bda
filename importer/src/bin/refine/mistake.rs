//! Why a command can neither answer nor refuse.

use std::ffi::OsStr;

/// A mistake in words.
pub enum Mistake {
    /// In the words of the command line.
    Usage(String),
    /// A word that names no command, in quotes.
    Unknown(String),
    /// A file that is not there, by its name.
    Absent(String),
    /// In what is to be read.
    Input(String),
    /// There is no memory.
    Memory(String),
}

impl Mistake {
    pub fn unknown(word: &OsStr) -> Mistake {
        Mistake::Unknown(format!("{word:?}"))
    }

    /// The command takes another number of arguments.
    pub fn count<T>(arguments: &[T]) -> Mistake {
        Mistake::Usage(format!("wrong number of arguments: {}", arguments.len()))
    }
}
