//! Reading a job text.
//!
//! A line's checks are made in the order in which the scope tries its refusals; the first that
//! fails gives the refusal of the line, and the first line that has one gives it to the text.

use super::job::{Cell, Job, Layout, Weights, MOST_CELLS, MOST_REORDERING, MOST_TALL, TALL};
use super::numbers::{read_numbers, Numbers};
use super::Refused;

const FORM: u32 = 1;
const RANGE: u32 = 2;
const LIMIT: u32 = 3;
const ORDER: u32 = 4;

/// Numbers on a cell line before its layouts, the lead not counted.
const BEFORE_LAYOUTS: usize = 4;

/// The job that a text says, or the refusal of its earliest bad line.
pub fn read_job(text: &[u8]) -> Result<Job, Refused> {
    let (mut job, mut at) = read_header(text).map_err(|number| Refused { number, line: 1 })?;
    let mut seen = Seen::default();
    let mut line = 1;
    while at < text.len() {
        line += 1;
        let refuse = |number| Refused { number, line };
        let fixed = text[at] == b'F';
        let lead = if fixed { b'F' } else { b'C' };
        let numbers = lead_and_numbers(lead, text, at).ok_or(refuse(FORM))?;
        let mut cell = read_cell(job.rows, &numbers).map_err(refuse)?;
        cell.fixed = fixed;
        seen.admit(&cell).map_err(refuse)?;
        job.cells.push(cell);
        at = numbers.next;
    }
    Ok(job)
}

/// What of the earlier cells bears on the next one.
#[derive(Default)]
struct Seen {
    cells: usize,
    tall: usize,
    /// The highest given site so far in each row.
    highest: [u16; 2],
}

impl Seen {
    /// Takes one more cell in, unless it is one too many or its given site falls.
    fn admit(&mut self, cell: &Cell) -> Result<(), u32> {
        self.cells += 1;
        self.tall += usize::from(cell.is_tall());
        if self.cells > MOST_CELLS || self.tall > MOST_TALL {
            return Err(LIMIT);
        }
        for highest in &mut self.highest[cell.rows()] {
            if cell.given < *highest {
                return Err(ORDER);
            }
            *highest = cell.given;
        }
        Ok(())
    }
}

/// The numbers of the line that begins at `at` and has this lead.
fn lead_and_numbers(lead: u8, text: &[u8], at: usize) -> Option<Numbers> {
    let led = text.get(at) == Some(&lead) && text.get(at + 1) == Some(&b',');
    led.then(|| read_numbers(text, at + 2)).flatten()
}

/// A job without cells, and where its cell lines begin.
fn read_header(text: &[u8]) -> Result<(Job, usize), u32> {
    let has_filled = text.first() == Some(&b'K');
    let lead = if has_filled { b'K' } else { b'J' };
    let numbers = lead_and_numbers(lead, text, 0).ok_or(FORM)?;
    let &[rows, sites, displacement, reordering, ref rest @ ..] = numbers.values() else {
        return Err(FORM);
    };
    let weights = read_weights(rest, has_filled).ok_or(FORM)?;
    let in_range = (1..=2).contains(&rows)
        && (1..=1024).contains(&sites)
        && displacement <= 7
        && reordering <= MOST_REORDERING
        && rest.iter().all(|&weight| weight <= 1000);
    if !in_range {
        return Err(RANGE);
    }
    let job = Job {
        rows,
        sites,
        displacement,
        reordering,
        weights,
        cells: Vec::with_capacity(MOST_CELLS),
    };
    Ok((job, numbers.next))
}

/// The weights of a first line, if it has as many as its lead asks for.
fn read_weights(weights: &[u16], has_filled: bool) -> Option<Weights> {
    let (&[step, shift, mirror, swap], filled) = weights.split_first_chunk()?;
    let filled = match (filled, has_filled) {
        (&[], false) => None,
        (&[filled], true) => Some(filled),
        _ => return None,
    };
    Some(Weights {
        step,
        shift,
        mirror,
        swap,
        filled,
    })
}

/// The cell of a line of numbers, in a job of so many rows. Whether it is fixed is for the lead to
/// say.
fn read_cell(rows: u16, numbers: &Numbers) -> Result<Cell, u32> {
    let &[row, given, mirrorable, layouts, ..] = numbers.values() else {
        return Err(FORM);
    };
    let row_exists = row == 0 || rows == 2 && row <= TALL;
    if !row_exists || !(1..=2).contains(&layouts) {
        return Err(RANGE);
    }
    let size = if row == TALL { 9 } else { 5 };
    if numbers.count != BEFORE_LAYOUTS + usize::from(layouts) * size {
        return Err(FORM);
    }
    let mut cell = Cell {
        row,
        given,
        fixed: false,
        mirrorable: mirrorable == 1,
        layouts,
        layout: [Layout::default(); 2],
    };
    let mut in_range = given <= 1023 && mirrorable <= 1;
    let fields = numbers.values()[BEFORE_LAYOUTS..].chunks_exact(size);
    for (layout, fields) in cell.layout.iter_mut().zip(fields) {
        in_range &= read_layout(layout, fields);
    }
    if in_range {
        Ok(cell)
    } else {
        Err(RANGE)
    }
}

/// Fills in a layout from its fields and says whether they are in range.
fn read_layout(layout: &mut Layout, fields: &[u16]) -> bool {
    let (width, heights) = (fields[0], &fields[1..]);
    let last_row = heights.len() / 4 - 1;
    layout.width = width;
    for (row, row_heights) in layout.heights.iter_mut().enumerate() {
        let from = 4 * row.min(last_row);
        row_heights.copy_from_slice(&heights[from..from + 4]);
    }
    (1..=64).contains(&width) && heights.iter().all(|height| (1..=15).contains(height))
}
