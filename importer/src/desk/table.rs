//! A table for people: columns are as wide as they need, and numbers stand on the right.

use std::fmt::Display;

/// Between two columns.
const PART: &str = "  ";

/// A table that is filled row by row.
#[derive(Clone, Debug, Default)]
pub struct Table {
    rows: Vec<Vec<String>>,
}

impl Table {
    /// A table whose columns have these names.
    pub fn new<Name: Display>(columns: impl IntoIterator<Item = Name>) -> Table {
        let mut table = Table::default();
        table.push(columns);
        table
    }

    /// A row more.
    pub fn push<Entry: Display>(&mut self, row: impl IntoIterator<Item = Entry>) {
        let row = row.into_iter().map(|entry| entry.to_string());
        self.rows.push(row.collect());
    }

    /// The table's lines: every column is aligned on the right.
    pub fn text(&self) -> String {
        let widths = self.widths();
        let mut text = String::new();
        for row in &self.rows {
            let entries = row.iter().zip(&widths);
            let entries = entries.map(|(entry, &width)| format!("{entry:>width$}"));
            text += &entries.collect::<Vec<_>>().join(PART);
            text.push('\n');
        }
        text
    }

    fn widths(&self) -> Vec<usize> {
        let columns = self.rows.iter().map(Vec::len).max().unwrap_or_default();
        let width = |column: usize| {
            let entries = self.rows.iter().filter_map(|row| row.get(column));
            entries.map(|entry| entry.chars().count()).max()
        };
        let widths = (0..columns).map(|column| width(column).unwrap_or_default());
        widths.collect()
    }
}

#[cfg(test)]
mod tests {
    use super::*;

    #[test]
    fn columns_are_as_wide_as_they_need() {
        let mut table = Table::new(["row", "a long name"]);
        table.push([1, 2]);
        table.push([12345, 0]);
        let text = "  row  a long name\n    1            2\n12345            0\n";
        assert_eq!(table.text(), text);
    }
}
