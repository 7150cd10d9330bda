//! A job text.

mod cell;
mod header;
mod layout;

pub use cell::Cell;
pub use header::{Header, MOST_DISPLACEMENT, MOST_REORDERING, MOST_SITES};
pub use layout::{Edge, Layout};

use super::line::{lines, Line};
use super::reason::{Reason, FORM, LIMIT, ORDER};
use crate::Refused;

const MOST_CELLS: usize = 64;
const MOST_TALL: usize = 24;

/// A cell's line is its place among the cells, counted from 0, and this: lines count from 1, and
/// the first one is the header's.
const LINES_BEFORE: usize = 2;

pub struct Job {
    pub header: Header,
    pub cells: Vec<Cell>,
}

/// The job that a text says, or what is wrong with its earliest bad line.
pub fn read(text: &[u8]) -> Result<Job, Reason> {
    let mut job = Job {
        header: read_header(text)?,
        cells: Vec::new(),
    };
    for line in lines(text).skip(1) {
        let cell = cell::read(&line, job.header.rows)?;
        job.admit(&line, cell)?;
    }
    Ok(job)
}

/// What the first line says, whatever follows it, or what is wrong with it.
pub fn read_header(text: &[u8]) -> Result<Header, Reason> {
    let first = lines(text).next().ok_or_else(empty)?;
    header::read(&first)
}

fn empty() -> Reason {
    Reason {
        answer: Refused {
            number: FORM,
            line: 1,
        },
        words: "the job is empty".into(),
    }
}

impl Job {
    /// Takes one more cell in, unless it is one too many or its given site falls.
    fn admit(&mut self, line: &Line, cell: Cell) -> Result<(), Reason> {
        if let Some(words) = self.surplus(&cell) {
            return Err(line.refused(LIMIT, words));
        }
        if let Some(words) = self.falling(&cell) {
            return Err(line.refused(ORDER, words));
        }
        self.cells.push(cell);
        Ok(())
    }

    fn surplus(&self, cell: &Cell) -> Option<String> {
        let number = self.cells.len() + 1;
        let tall = self.cells.iter().filter(|cell| cell.is_tall()).count();
        if number > MOST_CELLS {
            Some(format!(
                "cell {number}; a job has at most {MOST_CELLS} cells"
            ))
        } else if cell.is_tall() && tall >= MOST_TALL {
            let tall = tall + 1;
            Some(format!(
                "cell {number} is tall cell {tall}; a job has at most {MOST_TALL} tall cells"
            ))
        } else {
            None
        }
    }

    /// Of the earlier cells that the given site is below, the one furthest right is named.
    fn falling(&self, cell: &Cell) -> Option<String> {
        let earlier = self.cells.iter().enumerate();
        let above = earlier.filter(|(_, other)| other.given > cell.given && other.meets(cell));
        let (at, other) = above.max_by_key(|(_, other)| other.given)?;
        Some(format!(
            "field 3 (given) is {}, below {}, the given site of cell {} (line {}) in {}",
            cell.given,
            other.given,
            at + 1,
            at + LINES_BEFORE,
            other.shared_rows(cell),
        ))
    }
}

#[cfg(test)]
mod tests {
    use super::*;
    use crate::job::Weights;

    #[test]
    fn a_job_is_read_field_by_field() {
        let text =
            b"J,2,20,3,1,100,1,90,50\nC,1,4,1,2,5,1,2,3,4,6,5,6,7,8\nF,2,9,0,1,2,1,2,3,4,5,6,7,8\n";
        let Job { header, cells } = read(text).expect("the job is in form");
        let limits = (header.displacement, header.reordering);
        assert_eq!((header.rows, header.sites, limits), (2, 20, (3, 1)));
        let weights = Weights {
            step: 100,
            shift: 1,
            mirror: 90,
            swap: 50,
            filled: None,
        };
        assert_eq!(header.weights, weights);
        let [single, tall] = &cells[..] else {
            panic!("two cells")
        };
        assert!(!single.is_tall() && single.stands_in(1) && !single.stands_in(0));
        assert_eq!((single.given, single.mirrorable), (4, true));
        let edge = |p, n| Edge { p, n };
        let [first, second] = &single.layouts[..] else {
            panic!("two layouts")
        };
        assert_eq!((first.width, first.highest()), (5, Some(4)));
        assert_eq!(first.edges_in(1), Some([edge(1, 2), edge(3, 4)]));
        assert_eq!((second.width, second.highest()), (6, Some(8)));
        assert_eq!(second.edges_in(1), Some([edge(5, 6), edge(7, 8)]));
        assert!(tall.is_tall() && tall.stands_in(0) && tall.stands_in(1));
        assert_eq!((tall.given, tall.mirrorable), (9, false));
        assert_eq!((single.fixed, tall.fixed), (false, true));
        let [layout] = &tall.layouts[..] else {
            panic!("one layout")
        };
        assert_eq!(layout.edges_in(0), Some([edge(1, 2), edge(3, 4)]));
        assert_eq!(layout.edges_in(1), Some([edge(5, 6), edge(7, 8)]));
    }

    #[test]
    fn a_first_line_led_by_k_says_a_weight_more() {
        let header = read_header(b"K,2,20,3,1,100,1,90,50,7\n").expect("a line in form");
        let limits = (header.displacement, header.reordering);
        assert_eq!((header.rows, header.sites, limits), (2, 20, (3, 1)));
        let weights = Weights {
            step: 100,
            shift: 1,
            mirror: 90,
            swap: 50,
            filled: Some(7),
        };
        assert_eq!(header.weights, weights);
    }
}
