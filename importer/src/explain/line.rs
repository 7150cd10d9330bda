//! The lines of a text, and what is wrong with how a line ends or how the text starts.

use super::reason::Reason;
use crate::Refused;

/// Marks that editors put before a text, and their names.
const MARKS: [(&[u8], &str); 3] = [
    (b"\xef\xbb\xbf", "UTF-8"),
    (b"\xff\xfe", "UTF-16"),
    (b"\xfe\xff", "UTF-16"),
];

pub struct Line<'text> {
    /// Counted from 1.
    pub number: u32,
    /// With the line feed, if it has one. Never empty.
    bytes: &'text [u8],
}

/// The lines of a text; the last one may lack its line feed.
pub fn lines(text: &[u8]) -> impl Iterator<Item = Line<'_>> {
    let lines = text.split_inclusive(|&byte| byte == b'\n');
    lines.zip(1..).map(|(bytes, number)| Line { number, bytes })
}

impl<'text> Line<'text> {
    /// The line without its line feed.
    pub fn body(&self) -> &'text [u8] {
        self.bytes.strip_suffix(b"\n").unwrap_or(self.bytes)
    }

    pub fn fields(&self) -> impl Iterator<Item = &'text [u8]> {
        self.body().split(|&byte| byte == b',')
    }

    /// A byte order mark hides the first field, and a carriage return belongs to the last one:
    /// both are said before anything about fields.
    pub fn foreign(&self) -> Option<String> {
        let starts = |(mark, _): &&(&[u8], &str)| self.bytes.starts_with(mark);
        if self.number == 1 {
            if let Some((_, name)) = MARKS.iter().find(starts) {
                return Some(format!("the text starts with a {name} byte order mark"));
            }
        }
        let ends = self.bytes.ends_with(b"\r\n");
        ends.then(|| "line ends with CR LF; lines end with LF alone".into())
    }

    /// Only the last line can lack its line feed.
    pub fn unended(&self) -> Option<String> {
        let ended = self.bytes.ends_with(b"\n");
        (!ended).then(|| "the last line has no line feed".into())
    }

    /// A reason to refuse this line.
    pub fn refused(&self, number: u32, words: String) -> Reason {
        let line = self.number;
        Reason {
            answer: Refused { number, line },
            words,
        }
    }
}
