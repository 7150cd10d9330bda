//! The words behind a command's name: its options, and the arguments besides.

use crate::input::DASH;
use crate::mistake::Mistake;
use std::ffi::{OsStr, OsString};
use std::path::Path;

/// An option of a command.
pub struct Switch {
    /// How it is typed, the usual one first.
    pub words: &'static [&'static str],
    /// What stands behind it, if something does.
    pub takes: Option<&'static str>,
    /// What it does.
    pub does: &'static str,
}

impl Switch {
    fn is_named(&self, word: &OsStr) -> bool {
        self.words.iter().any(|known| word == *known)
    }

    /// How it is typed, in each way, with what it takes.
    pub fn line(&self) -> String {
        let words = self.words.join(", ");
        match self.takes {
            Some(takes) => format!("{words} {takes}"),
            None => words,
        }
    }
}

/// An option as it was typed, and the word behind it if it takes one.
struct Typed<'line> {
    option: &'line OsStr,
    value: Option<&'line OsStr>,
}

pub struct Words<'line> {
    options: Vec<Typed<'line>>,
    pub arguments: Vec<&'line OsStr>,
}

impl<'line> Words<'line> {
    /// Parts options from arguments: an option begins with `-` and has more than that, and behind
    /// `--` there are none.
    fn parted(words: &'line [OsString], known: &[Switch]) -> Words<'line> {
        let mut parted = Words {
            options: Vec::new(),
            arguments: Vec::new(),
        };
        let mut words = words.iter().map(OsString::as_os_str);
        while let Some(word) = words.next() {
            match word.as_encoded_bytes() {
                b"--" => parted.arguments.extend(words.by_ref()),
                [b'-', _, ..] => {
                    let takes = |switch: &&Switch| switch.takes.is_some() && switch.is_named(word);
                    let value = known.iter().find(takes).and_then(|_| words.next());
                    let option = word;
                    parted.options.push(Typed { option, value });
                }
                _ => parted.arguments.push(word),
            }
        }
        parted
    }

    /// The words of a command that has these options.
    pub fn of(words: &'line [OsString], known: &[Switch]) -> Result<Words<'line>, Mistake> {
        let words = Words::parted(words, known);
        let is_known = |typed: &&Typed| known.iter().any(|switch| switch.is_named(typed.option));
        match words.options.iter().find(|typed| !is_known(typed)) {
            Some(typed) => Err(Mistake::Usage(format!(
                "there is no option {:?}",
                typed.option
            ))),
            None => Ok(words),
        }
    }

    /// Whether this option is among the words.
    pub fn has(&self, switch: &Switch) -> bool {
        self.options
            .iter()
            .any(|typed| switch.is_named(typed.option))
    }

    /// The number behind this option, if it is among the words; the last one counts.
    pub fn number(&self, switch: &Switch) -> Result<Option<u32>, Mistake> {
        self.behind(switch, "a number", plain_number)
    }

    /// The path behind this option, if it is among the words; the last one counts.
    pub fn path(&self, switch: &Switch) -> Result<Option<&'line Path>, Mistake> {
        let path = |word: &'line OsStr| (!word.is_empty() && word != DASH).then_some(word);
        let path = self.behind(switch, "a path", path)?;
        Ok(path.map(Path::new))
    }

    /// What the word behind this option stands for; `what` it is to be stands in the message.
    fn behind<T>(
        &self,
        switch: &Switch,
        what: &str,
        read: impl Fn(&'line OsStr) -> Option<T>,
    ) -> Result<Option<T>, Mistake> {
        let is_it = |typed: &&Typed| switch.is_named(typed.option);
        let Some(typed) = self.options.iter().rev().find(is_it) else {
            return Ok(None);
        };
        match typed.value.and_then(read) {
            Some(value) => Ok(Some(value)),
            None => Err(Mistake::Usage(format!(
                "{} needs {what} behind it",
                typed.option.to_string_lossy()
            ))),
        }
    }
}

/// The number that an argument is; the message calls it by its name.
pub fn argument(name: &str, word: &OsStr) -> Result<u32, Mistake> {
    let most = u32::MAX;
    plain_number(word).ok_or_else(|| {
        Mistake::Usage(format!(
            "{name} is {word:?}; it is a number from 0 to {most}"
        ))
    })
}

/// A number without a sign.
fn plain_number(word: &OsStr) -> Option<u32> {
    let word = word.to_str()?;
    let digits = word.bytes().all(|byte| byte.is_ascii_digit());
    word.parse().ok().filter(|_| digits)
}

/// Whether an option is among the words, whatever else is.
pub fn ask(words: &[OsString], switch: &Switch) -> bool {
    Words::parted(words, &[]).has(switch)
}
