//! The numbers of a placement as a row of figures.

use importer::desk::Table;
use importer::Numbers;

/// Their names, in the order in which they are printed; not every job has the last.
const NAMES: [&str; 7] = [
    "cost",
    "steps",
    "sites shifted",
    "mirrored",
    "changed",
    "drift",
    "filled steps",
];

/// Numbers, or differences of them.
pub type Figures = Vec<i64>;

pub fn of(numbers: &Numbers) -> Figures {
    let mut figures = vec![
        numbers.cost.into(),
        numbers.steps.into(),
        numbers.shifted.into(),
        numbers.mirrored.into(),
        numbers.changed.into(),
        numbers.drift.into(),
    ];
    figures.extend(numbers.filled.map(i64::from));
    figures
}

/// What is saved of each by going from the first to the second, which are of one job.
pub fn saved(from: &Figures, to: &Figures) -> Figures {
    let both = from.iter().zip(to);
    both.map(|(from, to)| from - to).collect()
}

/// A line with a lead and its figures.
pub fn line((lead, figures): &(&str, Figures)) -> String {
    format!("{lead},{}\n", shown(figures).join(","))
}

/// A table with a row for each lead and its figures, all of one job.
pub fn table(rows: &[(&str, Figures)]) -> String {
    let most = rows.iter().map(|(_, figures)| figures.len()).max();
    let names = NAMES.into_iter().take(most.unwrap_or_default());
    let mut table = Table::new([""].into_iter().chain(names));
    for (lead, figures) in rows {
        table.push([lead.to_string()].into_iter().chain(shown(figures)));
    }
    table.text()
}

fn shown(figures: &Figures) -> Vec<String> {
    figures.iter().map(i64::to_string).collect()
}
