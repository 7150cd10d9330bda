//! What a run prints and its exit status.

use crate::streams;
use importer::explain::printable;
use importer::{Numbers, Refused};
use std::io::{self, Write};
use std::process::ExitCode;

const ANSWER: u8 = 0;
const REFUSAL: u8 = 1;
const ERROR: u8 = 2;

pub struct Report {
    status: u8,
    output: Vec<u8>,
    notes: Vec<u8>,
}

impl Report {
    /// An answer, for standard output.
    pub fn answer(output: impl Into<Vec<u8>>) -> Report {
        Report {
            status: ANSWER,
            output: output.into(),
            notes: Vec::new(),
        }
    }

    /// The answer of a check that was not passed: its exit status is that of a refusal.
    pub fn not_passed(self, note: &str) -> Report {
        self.with_note(note).failing()
    }

    /// `refused,number,line`; on standard error the line itself, what is wrong with it, and what
    /// the number means. `text` is what the text with the line is called.
    pub fn refusal(refused: Refused, text: &str, line: &[u8], words: Option<String>) -> Report {
        let mut report = Report {
            status: REFUSAL,
            output: format!("{}\n", refused.fields()).into(),
            notes: Vec::new(),
        };
        if !line.is_empty() {
            report = report.with_line(&printable(line));
        }
        if let Some(words) = words {
            report = report.with_words_at(text, refused.line, &words);
        }
        report.with_note(&refused.to_string())
    }

    /// A usage or input error: standard output stays empty.
    pub fn error(reason: &str) -> Report {
        let report = Report {
            status: ERROR,
            output: Vec::new(),
            notes: Vec::new(),
        };
        report.with_note(reason.trim_end())
    }

    /// The report with one more line on standard error, in the program's name.
    pub fn with_note(self, note: &str) -> Report {
        self.with_line(&format!("refine: {note}"))
    }

    /// The report with words about a line of a text, in the form that editors jump to.
    pub fn with_words_at(self, text: &str, line: u32, words: &str) -> Report {
        self.with_line(&format!("{text}:{line}: {words}"))
    }

    fn with_line(mut self, line: &str) -> Report {
        self.notes.extend_from_slice(line.as_bytes());
        self.notes.push(b'\n');
        self
    }

    /// The report with the exit status of a refusal.
    pub fn failing(mut self) -> Report {
        self.status = REFUSAL;
        self
    }

    /// The report with the exit status of an input error: what it says is not all that was asked.
    pub fn lacking(mut self) -> Report {
        self.status = ERROR;
        self
    }

    /// Prints the report. A reader that has gone away is an error without a word.
    pub fn write(self) -> ExitCode {
        let written = print(&self.output);
        // Nothing can be told to a reader of standard error that has gone away.
        let _ = io::stderr().write_all(&self.notes);
        match written {
            Ok(()) => ExitCode::from(self.status),
            Err(error) => {
                if error.kind() != io::ErrorKind::BrokenPipe {
                    let _ = writeln!(
                        io::stderr(),
                        "refine: cannot write standard output: {error}"
                    );
                }
                ExitCode::from(ERROR)
            }
        }
    }
}

/// Writes to standard output, where there is something to write.
fn print(output: &[u8]) -> io::Result<()> {
    match output {
        [] => Ok(()),
        _ => streams::output()?.write_all(output),
    }
}

/// `cost,steps,sites shifted,mirrored,changed,drift`, and of some jobs the filled steps.
pub fn line_of(numbers: &Numbers) -> String {
    numbers.fields()
}
