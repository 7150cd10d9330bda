//! What the refiner says of the rows, above the picture.

use super::canvas::{Anchor, Canvas};
use super::panel::{Panel, Said};
use super::text::{ALARM, HEADING, NAME, PLAIN, SMALL};
use crate::explain::{count, Job};
use crate::job::Weights;
use crate::{Numbers, Refused};

const LEFT: i32 = 16;
const LINE: i32 = 16;

/// The baseline of the first line, and where words behind a name begin.
const FIRST: i32 = 26;
const WORDS: i32 = 110;

/// Where the columns of numbers end. The last one is there only for jobs that weigh filled steps.
const COLUMNS: [Column; 7] = [
    ("cost", 170),
    ("steps", 240),
    ("sites shifted", 360),
    ("mirrored", 450),
    ("changed", 530),
    ("drift, 1/100 site", 645),
    ("filled steps", 730),
];

/// A column's name, and where it ends.
type Column = (&'static str, i32);

/// The columns that a job has.
fn columns(job: &Job) -> &'static [Column] {
    match job.header.weights.filled {
        Some(_) => &COLUMNS,
        None => &COLUMNS[..COLUMNS.len() - 1],
    }
}

/// The width that a job's legend needs.
pub fn narrowest(job: &Job) -> i32 {
    columns(job).last().map_or(0, |(_, end)| end + 15)
}

/// What the rows are, in one line.
pub fn heading(job: &Job) -> String {
    let rows = if job.header.rows == 1 {
        "Row"
    } else {
        "Row pair"
    };
    let fixed = match job.cells.iter().filter(|cell| cell.fixed).count() {
        0 => String::new(),
        fixed => format!(" ({fixed} fixed)"),
    };
    format!(
        "{rows} of {}{fixed}, {}",
        count(job.cells.len(), "cell"),
        count(job.header.sites as usize, "site")
    )
}

/// Limits and weights, in one line.
fn limits(job: &Job) -> String {
    let (limit, order) = (job.header.displacement, job.header.reordering);
    let Weights {
        step,
        shift,
        mirror,
        swap,
        filled,
    } = job.header.weights;
    let four = format!("step {step}, shift {shift}, mirror {mirror}, swap {swap}");
    let filled = filled.map_or_else(String::new, |filled| format!(", filled {filled}"));
    format!("D {limit}, R {order}; weights: {four}{filled}")
}

/// A pen that writes line below line.
pub struct Pen<'canvas> {
    canvas: &'canvas mut Canvas,
    columns: &'static [Column],
    width: i32,
    y: i32,
    /// Whether the columns of numbers have their names yet.
    named: bool,
}

impl<'canvas> Pen<'canvas> {
    pub fn new(canvas: &'canvas mut Canvas, job: &Job, width: i32) -> Pen<'canvas> {
        let (y, named) = (FIRST, false);
        Pen {
            canvas,
            columns: columns(job),
            width,
            y,
            named,
        }
    }

    /// Writes heading, limits and weights, then what is said of each panel. Returns where it ends.
    pub fn write(mut self, job: &Job, panels: &[Panel], none: Option<&Refused>) -> i32 {
        self.canvas
            .text(HEADING, Anchor::Start, LEFT, self.y, &heading(job));
        self.y += LINE + 2;
        self.canvas
            .text(PLAIN, Anchor::Start, LEFT, self.y, &limits(job));
        self.y += LINE + 4;
        for panel in panels {
            self.panel(panel);
        }
        if let Some(refused) = none {
            let words = format!("refusal {}: {}", refused.number, refused.reason());
            self.name("cheapest");
            self.words(&words);
        }
        self.y
    }

    fn name(&mut self, name: &str) {
        self.canvas.text(NAME, Anchor::Start, LEFT, self.y, name);
    }

    fn panel(&mut self, panel: &Panel) {
        match &panel.said {
            Said::Legal(numbers) => {
                self.column_names();
                self.name(panel.name);
                self.numbers(numbers);
            }
            broken => {
                self.name(panel.name);
                self.words(&broken.words());
            }
        }
    }

    /// The names of the columns, above the first numbers.
    fn column_names(&mut self) {
        if !self.named {
            for (name, x) in self.columns {
                self.canvas.text(SMALL, Anchor::End, *x, self.y, name);
            }
            self.y += LINE;
            self.named = true;
        }
    }

    /// The numbers in the order in which `refine` prints them, as the columns have them.
    fn numbers(&mut self, numbers: &Numbers) {
        let numbers = numbers.fields();
        for (number, (_, x)) in numbers.split(',').zip(self.columns) {
            self.canvas.text(PLAIN, Anchor::End, *x, self.y, number);
        }
        self.y += LINE;
    }

    /// Words in red behind the name, in as many lines as they need.
    fn words(&mut self, words: &str) {
        for line in ALARM.lines(words, self.width - WORDS - LEFT) {
            self.canvas.text(ALARM, Anchor::Start, WORDS, self.y, &line);
            self.y += LINE;
        }
    }
}
