//! What a legal placement costs.

use super::gap::{is_charged, is_filled};
use super::job::{Cell, Job};
use super::order::Order;
use super::placement::Pose;
use std::cmp::Ordering;

/// The numbers of a legal placement.
#[derive(Clone, Copy, Debug, Default, PartialEq, Eq)]
pub struct Numbers {
    pub steps: u32,
    pub shifted: u32,
    pub mirrored: u32,
    pub changed: u32,
    pub cost: u32,
    pub drift: i32,
    /// Those of the steps that are at gaps 2 and 3 (A7).
    pub filled_steps: u32,
}

impl Numbers {
    /// In the order in which they go to a result array; the last is a field of some jobs only.
    pub fn fields(&self) -> [i32; 7] {
        [
            self.steps as i32,
            self.shifted as i32,
            self.mirrored as i32,
            self.changed as i32,
            self.cost as i32,
            self.drift,
            self.filled_steps as i32,
        ]
    }
}

/// The numbers of a placement that keeps the rules, and whose rows these are.
pub fn numbers(job: &Job, placement: &[Pose], rows: &[Order; 2]) -> Numbers {
    let mut numbers = Numbers::default();
    let mut sum = 0;
    for (cell, pose) in job.cells.iter().zip(placement) {
        numbers.shifted += u32::from(pose.site.abs_diff(cell.given));
        numbers.mirrored += u32::from(pose.mark);
        numbers.changed += u32::from(pose.layout);
        sum += i32::from(pose.site) - i32::from(cell.given);
    }
    for (row, order) in rows.iter().enumerate() {
        add_steps(&mut numbers, job, placement, order, row);
    }
    let weights = job.weights;
    numbers.cost = u32::from(weights.step) * (numbers.steps - numbers.filled_steps)
        + u32::from(weights.of_filled()) * numbers.filled_steps
        + u32::from(weights.shift) * numbers.shifted
        + u32::from(weights.mirror) * numbers.mirrored
        + u32::from(weights.swap) * numbers.changed;
    numbers.drift = drift(sum, job.cells.len() as i32);
    numbers
}

/// Counts the steps of a row, too.
fn add_steps(numbers: &mut Numbers, job: &Job, placement: &[Pose], order: &Order, row: usize) {
    let placed = |cell: u8| (&job.cells[usize::from(cell)], &placement[usize::from(cell)]);
    for (left, right) in order.neighbours() {
        let gap = i32::from(right.site - left.end);
        if is_charged(gap) {
            let steps = steps_between(placed(left.cell), placed(right.cell), row);
            numbers.steps += steps;
            numbers.filled_steps += if is_filled(gap) { steps } else { 0 };
        }
    }
}

/// How many of the facing heights of two cells, the first on the left, differ in a row.
pub fn steps_between(left: (&Cell, &Pose), right: (&Cell, &Pose), row: usize) -> u32 {
    let edge = |(cell, pose): (&Cell, &Pose), right: bool| {
        let [left_p, left_n, right_p, right_n] = pose.layout_of(cell).heights[row];
        if right != (pose.mark == 1) {
            [right_p, right_n]
        } else {
            [left_p, left_n]
        }
    };
    let [left_p, left_n] = edge(left, true);
    let [right_p, right_n] = edge(right, false);
    u32::from(left_p != right_p) + u32::from(left_n != right_n)
}

/// A sum over so many cells, in hundredths, rounded to nearest, halves to even (A9). The rounding of
/// a negative sum is the negative of that of its size.
fn drift(sum: i32, cells: i32) -> i32 {
    if cells == 0 {
        return 0;
    }
    let hundredths = 100 * sum.abs();
    let (whole, rest) = (hundredths / cells, hundredths % cells);
    let nearest = match (2 * rest).cmp(&cells) {
        Ordering::Less => whole,
        Ordering::Equal if whole % 2 == 0 => whole,
        Ordering::Equal | Ordering::Greater => whole + 1,
    };
    nearest * sum.signum()
}
