//! A reason in words, with the refusal that it belongs to.

use crate::Refused;

/// Refusal numbers of document 01, as far as a line's text decides them.
pub(super) const FORM: u32 = 1;
pub(super) const RANGE: u32 = 2;
pub(super) const LIMIT: u32 = 3;
pub(super) const ORDER: u32 = 4;
pub(super) const PLACEMENT: u32 = 5;

/// What is wrong, and the refusal that says so in numbers.
#[derive(Clone, Debug, PartialEq, Eq)]
pub struct Reason {
    /// The refusal that the words belong to.
    pub answer: Refused,
    /// Printable, in one line, without the name of the text and the line's number.
    pub words: String,
}

impl Reason {
    /// The words, if they belong to this refusal: a reason for another one would mislead.
    pub fn words_for(self, refused: &Refused) -> Option<String> {
        (self.answer == *refused).then_some(self.words)
    }
}
