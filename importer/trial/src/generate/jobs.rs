//! Jobs that the reader accepts, of every size.

use super::Random;
use crate::plain::job::{Cell, Job, Layout, Weights, MOST_REORDERING, MOST_TALL, TALL};

/// A job with this many cells.
pub fn job(random: &mut Random, cells: usize) -> Job {
    let rows = random.from_to(1, 2);
    let tall_in_ten = random.pick(&[0, 1, 3, 10]);
    let most_width = random.pick(&[1, 4, 16, 64]);
    let most_height = random.pick(&[1, 2, 3, 15]);
    let most_step = random.pick(&[0, 2, 8, 24]);
    let fixed_in_ten = fixed_in_ten(random);
    let mut job = Job {
        rows,
        sites: random.pick(&[1, 20, 200, 1023, 1024]),
        displacement: random.from_to(0, 7),
        reordering: random.from_to(0, MOST_REORDERING),
        weights: weights(random),
        cells: Vec::new(),
    };
    let mut highest = [0; 2];
    for _ in 0..cells {
        let tall = job.tall_cells() < MOST_TALL && random.chance(tall_in_ten, 10);
        let row = if rows == 1 {
            0
        } else if tall {
            TALL
        } else {
            random.from_to(0, 1)
        };
        let mut cell = cell(random, row, most_width, most_height);
        cell.fixed = random.chance(fixed_in_ten, 10);
        cell.given = next_given(&mut highest, &cell, random.from_to(0, most_step));
        job.cells.push(cell);
    }
    job
}

/// A job of a size from 0 to 64 cells, of which small ones are more frequent.
pub fn job_of_any_size(random: &mut Random) -> Job {
    let most = random.pick(&[3, 3, 8, 8, 8, 16, 64]);
    let cells = random.below(most + 1);
    job(random, cells)
}

/// A job of 60 cells and up to eleven more, so that some have a 65th cell, or a 25th tall one.
pub fn job_about_the_limits(random: &mut Random) -> Job {
    let mut job = job(random, 60);
    job.rows = 2;
    let row = random.pick(&[0, 1, 2, 2]);
    for _ in 0..random.below(12) {
        let mut cell = cell(random, row, 64, 15);
        cell.given = 1023;
        job.cells.push(cell);
    }
    job
}

/// Weights, of which one in four has one of filled steps.
pub fn weights(random: &mut Random) -> Weights {
    let weights = Weights {
        step: weight(random),
        shift: weight(random),
        mirror: weight(random),
        swap: weight(random),
        filled: None,
    };
    match random.chance(1, 4) {
        true => with_filled(random, weights),
        false => weights,
    }
}

fn weight(random: &mut Random) -> u16 {
    let high = random.pick(&[0, 1, 10, 1000]);
    random.from_to(high / 2, high)
}

/// The weights with one of filled steps (A7): that of other steps, any, or steps of one sort are free
/// and those of the other as dear as can be.
pub fn with_filled(random: &mut Random, weights: Weights) -> Weights {
    let any = weight(random);
    let pairs = [
        (weights.step, any),
        (weights.step, weights.step),
        (1000, 0),
        (0, 1000),
    ];
    let (step, filled) = random.pick(&pairs);
    Weights {
        step,
        filled: Some(filled),
        ..weights
    }
}

/// How many of ten cells of a job are fixed: in most jobs none, else few, most or all.
pub fn fixed_in_ten(random: &mut Random) -> usize {
    random.pick(&[0, 0, 0, 0, 2, 6, 10])
}

/// A cell in this row with one layout or two that is not fixed; its given site is left at 0.
pub fn cell(random: &mut Random, row: u16, most_width: u16, most_height: u16) -> Cell {
    let layouts = random.from_to(1, 2);
    cell_with_layouts(random, row, layouts, most_width, most_height)
}

pub fn cell_with_layouts(
    random: &mut Random,
    row: u16,
    layouts: u16,
    most_width: u16,
    most_height: u16,
) -> Cell {
    let mut cell = Cell {
        row,
        given: 0,
        fixed: false,
        mirrorable: random.chance(1, 2),
        layouts,
        layout: [Layout::default(); 2],
    };
    for layout in &mut cell.layout[..usize::from(layouts)] {
        *layout = self::layout(random, row, most_width, most_height);
    }
    cell
}

fn layout(random: &mut Random, row: u16, most_width: u16, most_height: u16) -> Layout {
    let mut heights = || [(); 4].map(|()| random.from_to(1, most_height));
    let row_0 = heights();
    let row_1 = if row == TALL { heights() } else { row_0 };
    Layout {
        width: random.from_to(1, most_width),
        heights: [row_0, row_1],
    }
}

/// A given site that does not fall in any row of the cell.
pub fn next_given(highest: &mut [u16; 2], cell: &Cell, step: u16) -> u16 {
    let rows = &mut highest[cell.rows()];
    let floor = rows.iter().copied().max().unwrap_or(0);
    let given = (floor + step).min(1023);
    rows.fill(given);
    given
}
