//! The rules of a placement in words.

use std::fmt;

/// A rule and what it asks.
#[derive(Clone, Copy, Debug, PartialEq, Eq)]
pub struct Rule {
    /// Its number, from 1.
    pub number: u32,
    /// What a [`sentence`](crate::sentence()) calls a placement that breaks it.
    pub phrase: &'static str,
    /// What it asks of a placement.
    pub asks: &'static str,
}

/// Every rule, once and in the order in which they are tried. README's table says the same in the
/// same words; `tests/tables.rs` holds it to it, and the phrases to what the refiner says.
pub const RULES: &[Rule] = &[
    Rule {
        number: 1,
        phrase: "choice not offered",
        asks: "the layout number is below the cell's count; the mark is 0, or 1 on a mirrorable \
               cell; a fixed cell has layout 0 and mark 0",
    },
    Rule {
        number: 2,
        phrase: "outside row",
        asks: "site plus width is at most sites",
    },
    Rule {
        number: 3,
        phrase: "shifted too far",
        asks: "site and given site differ by at most D; those of a fixed cell are the same",
    },
    Rule {
        number: 4,
        phrase: "overlap",
        asks: "no two cells share a site in a row",
    },
    Rule {
        number: 5,
        phrase: "one-site gap",
        asks: "between neighbours in a row there is never just one empty site",
    },
    Rule {
        number: 6,
        phrase: "order moved too far",
        asks:
            "a cell's place in each of its rows differs from its place in file order by at most R",
    },
    Rule {
        number: 7,
        phrase: "tall order changed",
        asks: "tall cells keep their file order from left to right",
    },
    Rule {
        number: 8,
        phrase: "one-site row end",
        asks: "a row with cells never has just one empty site before its first or after its last",
    },
];

/// The first broken rule, and its lowest cell, counted from 1.
#[derive(Clone, Copy, Debug, PartialEq, Eq)]
pub struct Broken {
    /// The rule's number.
    pub rule: u32,
    /// The cell's number.
    pub cell: u32,
}

impl Broken {
    /// What the rule asks.
    pub fn meaning(&self) -> &'static str {
        match RULES.iter().find(|rule| rule.number == self.rule) {
            Some(rule) => rule.asks,
            None => "a rule that this program does not know",
        }
    }
}

/// `cell 3 breaks rule 5: `, and what the rule asks.
impl fmt::Display for Broken {
    fn fmt(&self, out: &mut fmt::Formatter<'_>) -> fmt::Result {
        let Broken { rule, cell } = self;
        write!(out, "cell {cell} breaks rule {rule}: {}", self.meaning())
    }
}

impl std::error::Error for Broken {}
