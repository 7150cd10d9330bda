//! A cell line: `C,row,given,mirrorable,layouts`, then the layouts; `F` for `C` if it is fixed.

use super::layout::Layout;
use crate::explain::field::{in_range, Field};
use crate::explain::form::{count, Form, Numbers};
use crate::explain::line::Line;
use crate::explain::reason::{Reason, FORM, RANGE};

/// The row of a cell that stands in both.
const TALL: u32 = 2;

const HEIGHTS: [&str; 4] = ["left P", "left N", "right P", "right N"];

/// What the line of a cell that must not move begins with.
const FIXED: &str = "F";

const CELL: Form = Form {
    lead: Some((&["C", FIXED], "a line after the first")),
    fields_of,
};

pub struct Cell {
    /// 0, 1, or [`TALL`].
    pub row: u32,
    pub given: u32,
    /// Whether it must stay at its given site, in layout 0 and unmirrored.
    pub fixed: bool,
    pub mirrorable: bool,
    pub layouts: Vec<Layout>,
}

impl Cell {
    pub fn is_tall(&self) -> bool {
        self.row == TALL
    }

    /// Whether it has a layout of this number and may stand in it.
    pub fn offers_layout(&self, layout: u32) -> bool {
        let layouts = if self.fixed { 1 } else { self.layouts.len() };
        (layout as usize) < layouts
    }

    /// Whether it may have this mark.
    pub fn offers_mark(&self, mark: u32) -> bool {
        mark == 0 || mark == 1 && self.mirrorable && !self.fixed
    }

    pub fn stands_in(&self, row: u32) -> bool {
        self.row == row || self.is_tall()
    }

    /// Whether some row has both cells.
    pub fn meets(&self, other: &Cell) -> bool {
        let both = |&row: &u32| self.stands_in(row) && other.stands_in(row);
        [0, 1].iter().any(both)
    }

    /// The rows of two cells that meet, in words.
    pub fn shared_rows(&self, other: &Cell) -> &'static str {
        match self.row.min(other.row) {
            0 => "row 0",
            1 => "row 1",
            _ => "both rows",
        }
    }
}

/// The fields behind the lead. Those of the layouts are known only behind a row and a number of
/// layouts that there are.
fn fields_of(numbers: &Numbers) -> Vec<Field> {
    let mut fields = vec![
        Field::new("row", 0, TALL),
        Field::new("given", 0, 1023),
        Field::new("mirrorable", 0, 1),
        layouts_field(),
    ];
    if let [row @ 0..=TALL, _, _, layouts @ 1..=2, ..] = numbers.values[..] {
        (0..layouts).for_each(|layout| fields.extend(layout_fields(row, layout)));
    }
    fields
}

fn layouts_field() -> Field {
    Field::new("layouts", 1, 2)
}

/// A layout's width, then its heights: a tall cell's for row 0 and then for row 1.
fn layout_fields(row: u32, layout: u32) -> Vec<Field> {
    let parts: &[&str] = match row {
        TALL => &["row 0, ", "row 1, "],
        _ => &[""],
    };
    let mut fields = vec![Field::new(format!("layout {layout}, width"), 1, 64)];
    for part in parts {
        let field = |height| Field::new(format!("layout {layout}, {part}{height}"), 1, 15);
        fields.extend(HEIGHTS.iter().map(field));
    }
    fields
}

/// The cell of a line, in a job of so many rows.
pub fn read(line: &Line, rows: u32) -> Result<Cell, Reason> {
    let refuse = |number| move |words| line.refused(number, words);
    let numbers = CELL.numbers(line).map_err(refuse(FORM))?;
    let (row, given, mirrorable, layouts, of_layouts) = match &*numbers.values {
        &[row, given, mirrorable, layouts, ref rest @ ..] => {
            (row, given, mirrorable, layouts, rest)
        }
        _ => {
            let found = count(numbers.fields, "field");
            let fields = format!("{},row,given,mirrorable,layouts", numbers.lead);
            let words = format!("{found}, a cell line has at least 5: {fields}");
            return Err(line.refused(FORM, words));
        }
    };
    shape_in_range(rows, row, layouts).map_err(refuse(RANGE))?;
    let fields = fields_of(&numbers);
    let fitting = 1 + fields.len();
    if numbers.fields != fitting {
        let found = count(numbers.fields, "field");
        let layouts = count(layouts as usize, "layout");
        let words = format!("{found}, {fitting} fit row {row} with {layouts}");
        return Err(line.refused(FORM, words));
    }
    in_range(&fields, &numbers.values).map_err(refuse(RANGE))?;
    let size = layout_fields(row, 0).len();
    Ok(Cell {
        row,
        given,
        fixed: numbers.lead == FIXED,
        mirrorable: mirrorable == 1,
        layouts: of_layouts.chunks(size).filter_map(Layout::of).collect(),
    })
}

/// Row and layouts decide how many fields there are, so their ranges come before the others'. Rows
/// 1 and 2 are in range only if the header says two rows.
fn shape_in_range(rows: u32, row: u32, layouts: u32) -> Result<(), String> {
    let row_refused = match rows {
        1 => {
            let words = Field::new("row", 0, 0).refuses(2, row);
            words.map(|words| words + ", as the first line says 1 row")
        }
        _ => Field::new("row", 0, TALL).refuses(2, row),
    };
    let refused = row_refused.or_else(|| layouts_field().refuses(5, layouts));
    refused.map_or(Ok(()), Err)
}
