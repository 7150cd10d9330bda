//! What the farm's thousand jobs are like is what docs/LOAD.md says.

use trial::plain::job::{Cell, Job};
use trial::plain::load::job;

const PAPER: &str = include_str!("../../../docs/LOAD.md");

/// How far a cell of a load may shift.
const LIMIT: u16 = 7;

/// The paper's words in the row that begins so, without commas.
fn said(of: &str) -> String {
    let start = format!("| {of} | ");
    let mut rows = PAPER.lines().filter_map(|line| line.strip_prefix(&start));
    let row = rows.next().unwrap_or_else(|| panic!("no row {of}"));
    row.trim_end_matches(" |").replace(',', "")
}

fn jobs() -> Vec<Job> {
    (1..=1000).map(|seed| job(seed, 64)).collect()
}

/// The cells of each row of a job.
fn rows(job: &Job) -> [Vec<Cell>; 2] {
    let cells = job.cells.iter().copied();
    [0, 1].map(|row| {
        let in_row = cells.clone().filter(|cell| cell.rows().contains(&row));
        in_row.collect()
    })
}

fn mean(numbers: impl IntoIterator<Item = usize>) -> f64 {
    let numbers: Vec<usize> = numbers.into_iter().collect();
    numbers.iter().sum::<usize>() as f64 / numbers.len() as f64
}

#[test]
fn texts_and_tall_cells() {
    let jobs = jobs();
    let bytes: Vec<usize> = jobs.iter().map(|job| job.text().len()).collect();
    let (least, most) = (bytes.iter().min(), bytes.iter().max());
    let (least, most) = least.zip(most).expect("there are jobs");
    let words = format!("{least} to {most} {:.0} on average", mean(bytes.clone()));
    assert_eq!(said("bytes of the text"), words);
    let tall: Vec<usize> = jobs.iter().map(Job::tall_cells).collect();
    let just_24 = tall.iter().filter(|&&tall| tall == 24).count();
    let words = format!(
        "{:.1} on average and 24 in {just_24} of the jobs",
        mean(tall)
    );
    assert_eq!(said("tall cells"), words);
}

#[test]
fn cells_given_sites_and_widths() {
    let rows: Vec<Vec<Cell>> = jobs().iter().flat_map(rows).collect();
    let cells = || rows.iter().flatten();
    let words = format!("{:.1} on average", mean(rows.iter().map(Vec::len)));
    assert_eq!(said("cells in a row, tall ones among them"), words);
    let steps = rows.iter().flat_map(|row| row.windows(2));
    let steps = steps.map(|pair| usize::from(pair[1].given - pair[0].given));
    let words = format!("{:.1} sites on average", mean(steps));
    assert_eq!(said("from a given site to the next in its row"), words);
    let widths = cells().map(|cell| usize::from(cell.layout[0].width));
    let words = format!("{:.1} sites on average", mean(widths));
    assert_eq!(said("width of a cell in layout 0"), words);
    let widths = cells().map(|cell| usize::from(narrower(cell)));
    let words = format!("{:.1} sites on average", mean(widths));
    assert_eq!(said("width of a cell in its narrower layout"), words);
    let last = rows.iter().flat_map(|row| row.last());
    let last: Vec<usize> = last.map(|cell| cell.given.into()).collect();
    let most = last.iter().max().expect("there are rows");
    let words = format!("{:.0} on average {most} at most", mean(last.clone()));
    assert_eq!(said("the last given site of a row"), words);
}

fn narrower(cell: &Cell) -> u16 {
    let layouts = &cell.layout[..usize::from(cell.layouts)];
    let widths = layouts.iter().map(|layout| layout.width);
    widths.min().expect("a cell has a layout")
}

/// Whether the cells of a row but its rightmost are wider together than what is left of where that
/// one may stand; which is the last in file order, or the one before it.
fn is_too_full(row: &[Cell]) -> bool {
    let [first, .., last] = row else {
        return false;
    };
    let widths: Vec<u16> = row.iter().map(narrower).collect();
    let rightmost = widths.iter().rev().take(2).max();
    let others = widths.iter().sum::<u16>() - rightmost.unwrap_or(&0);
    others > last.given + LIMIT - first.given.saturating_sub(LIMIT)
}

#[test]
fn rows_that_are_too_full_as_a_whole() {
    let too_full = |job: &&Job| rows(job).iter().any(|row| is_too_full(row));
    let count = jobs().iter().filter(too_full).count();
    let words = format!("In {count} of the thousand a row is too full as a whole");
    let paper = PAPER.replace('\n', " ");
    assert!(paper.contains(&words), "the paper lacks: {words}");
}
