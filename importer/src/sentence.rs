//! What a sentence of Reasons says, as a value.

use crate::RULES;
use std::fmt;
use std::str::FromStr;

/// The sentence on a legal placement.
const LEGAL: &str = "legal.";

/// Rule and cells as they are had back from a sentence.
///
/// ```
/// use importer::Sentence;
///
/// # fn main() -> Result<(), importer::SentenceError> {
/// let Sentence::Broken { rule, cells } = "one-site gap: cell 3, cell 4, cell 12.".parse()? else {
///     panic!("the sentence names a rule");
/// };
/// assert_eq!((rule, cells), (5, vec![3, 4, 12]));
/// assert_eq!("legal.".parse::<Sentence>()?, Sentence::Legal);
/// # Ok(())
/// # }
/// ```
#[derive(Clone, Debug, PartialEq, Eq)]
pub enum Sentence {
    /// All rules hold.
    Legal,
    /// The first broken rule, and every cell that breaks it.
    Broken {
        /// The rule's number.
        rule: u32,
        /// The cells' numbers, counted from 1, in rising order.
        cells: Vec<u32>,
    },
}

/// A text is no sentence that the refiner writes.
#[derive(Clone, Copy, Debug, PartialEq, Eq)]
pub struct SentenceError;

/// The sentence as the refiner writes it.
impl fmt::Display for Sentence {
    fn fmt(&self, out: &mut fmt::Formatter<'_>) -> fmt::Result {
        match self {
            Sentence::Legal => out.write_str(LEGAL),
            Sentence::Broken { rule, cells } => {
                let entry = RULES.iter().find(|entry| entry.number == *rule);
                let phrase = entry.map_or("unknown rule", |entry| entry.phrase);
                let cells: Vec<String> = cells.iter().map(|cell| format!("cell {cell}")).collect();
                write!(out, "{phrase}: {}.", cells.join(", "))
            }
        }
    }
}

/// What a sentence says. A text that differs from the refiner's sentence in a byte is none.
impl FromStr for Sentence {
    type Err = SentenceError;

    fn from_str(text: &str) -> Result<Sentence, SentenceError> {
        let sentence = match text {
            LEGAL => Some(Sentence::Legal),
            _ => broken(text),
        };
        sentence
            .filter(|sentence| sentence.to_string() == text)
            .ok_or(SentenceError)
    }
}

/// Rule and cells of a text whose numbers may still be written in another form.
fn broken(text: &str) -> Option<Sentence> {
    let (phrase, cells) = text.strip_suffix('.')?.split_once(": ")?;
    let rule = RULES.iter().find(|rule| rule.phrase == phrase)?.number;
    let number = |cell: &str| cell.strip_prefix("cell ")?.parse().ok();
    let cells: Vec<u32> = cells.split(", ").map(number).collect::<Option<_>>()?;
    let rising = cells.windows(2).all(|pair| pair[0] < pair[1]);
    (rising && cells[0] > 0).then_some(Sentence::Broken { rule, cells })
}

impl fmt::Display for SentenceError {
    fn fmt(&self, out: &mut fmt::Formatter<'_>) -> fmt::Result {
        out.write_str("the text is no sentence of the refiner")
    }
}

impl std::error::Error for SentenceError {}

#[cfg(test)]
mod tests {
    use super::*;

    #[test]
    fn each_rule_is_had_back_by_its_phrase() {
        for rule in 1..=RULES.len() as u32 {
            for cells in [vec![1], vec![9, 10], (1..=64).collect()] {
                let sentence = Sentence::Broken { rule, cells };
                assert_eq!(sentence.to_string().parse(), Ok(sentence));
            }
        }
        assert_eq!(Sentence::Legal.to_string(), "legal.");
    }

    #[test]
    fn other_texts_are_no_sentences() {
        for text in [
            "",
            "legal",
            "legal.\n",
            " legal.",
            "Legal.",
            "overlap: .",
            "overlap.",
            "overlap: cell 1",
            "overlap: cell 1..",
            "overlap: cell 1.\n",
            "overlap: cell 1,cell 2.",
            "overlap: cell 1, 2.",
            "overlap: cell 1, cell 2, .",
            "overlap: cell 2, cell 1.",
            "overlap: cell 1, cell 1.",
            "overlap: cell 0.",
            "overlap: cell 01.",
            "overlap: cell +1.",
            "overlap: cell 4294967296.",
            "overlap : cell 1.",
            "rule 4: cell 1.",
            "unknown rule: cell 1.",
        ] {
            assert_eq!(text.parse::<Sentence>(), Err(SentenceError), "{text:?}");
        }
    }
}
