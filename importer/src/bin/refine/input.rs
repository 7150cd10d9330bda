//! Texts from standard input and from files: bytes as they are, with a limit on their length.

use crate::mistake::Mistake;
use crate::streams;
use importer::batch::{shown, LONGEST};
use std::ffi::OsStr;
use std::fs::File;
use std::io::{self, IsTerminal, Read, Write};

/// What stands for standard input where a file's name is asked.
pub const DASH: &str = "-";

/// A text with what messages about its lines call it.
pub struct Text {
    pub name: String,
    pub bytes: Vec<u8>,
}

impl Text {
    /// No text at all.
    pub fn none() -> Text {
        Text {
            name: String::new(),
            bytes: Vec::new(),
        }
    }

    /// The text of a file, or of standard input if the word is `-`. `what` the text is to be stands
    /// in the hint to a terminal.
    pub fn of(word: &OsStr, what: &str) -> Result<Text, Mistake> {
        if word == DASH {
            return Text::of_standard_input(what);
        }
        let name = shown(word);
        match File::open(word) {
            Ok(file) => Ok(Text {
                bytes: whole(file, &name)?,
                name,
            }),
            Err(error) if error.kind() == io::ErrorKind::NotFound => Err(Mistake::Absent(name)),
            Err(error) => Err(cannot("open", &name, &error)),
        }
    }

    pub fn of_standard_input(what: &str) -> Result<Text, Mistake> {
        const NAME: &str = "standard input";
        let input = streams::input().map_err(|error| cannot("read", NAME, &error))?;
        if input.is_terminal() {
            hint(what);
        }
        Ok(Text {
            name: "<stdin>".into(),
            bytes: whole(input, NAME)?,
        })
    }
}

/// Says what is waited for to somebody who only typed a command.
fn hint(what: &str) {
    let ends = "end it with Ctrl-D, or see `refine --help`";
    // Where it cannot be said, the text is waited for all the same.
    let _ = writeln!(io::stderr(), "refine: type {what} line by line; {ends}");
}

fn whole(source: File, name: &str) -> Result<Vec<u8>, Mistake> {
    let mut text = Vec::new();
    match source.take(LONGEST + 1).read_to_end(&mut text) {
        Err(error) => Err(cannot("read", name, &error)),
        Ok(_) if text.len() as u64 > LONGEST => Err(Mistake::Input(format!(
            "{name} is longer than {LONGEST} bytes"
        ))),
        Ok(_) => Ok(text),
    }
}

fn cannot(act: &str, name: &str, error: &io::Error) -> Mistake {
    Mistake::Input(format!("cannot {act} {name}: {error}"))
}
