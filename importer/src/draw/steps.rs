//! Steps between neighbours, marked in red where they are.

use super::canvas::Canvas;
use super::row::{Row, StepMark};
use super::scale::{Band, Track};
use crate::desk::Step;

/// The classes of the marks: cells that abut, and cells with a filler between them.
const ABUTTING: &str = "s0";
const FILLED: &str = "s2";

/// Draws the steps of a row whose right cell begins in the band, so that each is drawn once.
pub fn draw(canvas: &mut Canvas, row: &Row, band: &Band, track: &Track) {
    for mark in row.steps.iter().filter(|mark| band.has(mark.gap.end)) {
        canvas.titled(&words(mark), |canvas| draw_step(canvas, mark, band, track));
    }
}

/// A line from the left height to the right one, and the mark in its middle.
fn draw_step(canvas: &mut Canvas, of: &StepMark, band: &Band, track: &Track) {
    let StepMark { step, gap, heights } = of;
    let (left, right) = (band.x(gap.from), band.x(gap.end));
    let [of_left, of_right] = heights.map(|height| track.tip(step.diffusion, height));
    canvas.path("jog", &format!("M{left} {of_left}L{right} {of_right}"));
    let class = match step.is_filled() {
        true => FILLED,
        false => ABUTTING,
    };
    let (x, y) = ((left + right) / 2, (of_left + of_right) / 2);
    canvas.path(class, &mark(x, y));
}

/// A diamond around a point.
pub fn mark(x: i32, y: i32) -> String {
    format!("M{x} {}l5 5l-5 5l-5-5z", y - 5)
}

fn words(mark: &StepMark) -> String {
    let Step {
        row,
        left,
        right,
        diffusion,
        gap,
    } = mark.step;
    let [of_left, of_right] = mark.heights;
    format!("step in row {row}: {diffusion} {of_left} of cell {left} faces {diffusion} {of_right} of cell {right}, gap {gap}")
}
