//! Gaps with their width, and sites that cells share.

use super::canvas::{Anchor, Canvas};
use super::row::{Gap, GapKind, Row};
use super::scale::{Band, Frame, Piece, Track};
use super::text::{Font, ALARM, SMALL};
use crate::explain::count;

/// No line beside a width is shorter.
const SHORTEST: i32 = 6;

/// Draws the gaps of a row that are to be seen in a band.
pub fn draw(canvas: &mut Canvas, row: &Row, band: &Band, track: &Track) {
    for gap in &row.gaps {
        if let Some(piece) = band.piece(&gap.span) {
            draw_gap(canvas, row.number, gap, &piece, track);
        }
    }
}

fn draw_gap(canvas: &mut Canvas, row: u32, gap: &Gap, piece: &Piece, track: &Track) {
    let frame = piece.frame(track.top + 1, track.bottom() - 1);
    let width = gap.span.sites();
    let title = format!(
        "row {row}: {} from site {}",
        count(width as usize, "site"),
        gap.span.from
    );
    let class = match gap.kind {
        GapKind::OneSite => Some("one"),
        GapKind::Charged => Some("fill"),
        GapKind::Free => Some("wide"),
        GapKind::End => None,
    };
    if let Some(class) = class {
        canvas.titled(&title, |canvas| canvas.rect(class, &frame));
    }
    let font = match gap.kind {
        GapKind::OneSite => ALARM,
        _ => SMALL,
    };
    draw_width(canvas, font, &width.to_string(), piece, track);
}

/// The width on a light ground, and beside it lines that reach to both sides if there is room.
fn draw_width(canvas: &mut Canvas, font: Font, width: &str, piece: &Piece, track: &Track) {
    let (centre, baseline) = ((piece.left + piece.right) / 2, track.number_line());
    if canvas.text(font, Anchor::Middle, centre, baseline, width) {
        let ground = ground(font, centre, baseline, width);
        canvas.rect("back", &ground);
        if ground.left - piece.left > SHORTEST {
            canvas.path("size", &lines(piece, &ground, baseline - 3));
        }
    }
}

/// Lines at a height from a ground to both sides of a piece, with heads where it is not cut.
fn lines(piece: &Piece, ground: &Frame, y: i32) -> String {
    let sides = [
        (ground.left - 1, piece.left + 2, 3),
        (ground.right + 1, piece.right - 2, -3),
    ];
    let mut path = String::new();
    for ((from, to, back), cut) in sides.into_iter().zip(piece.cut) {
        path += &format!("M{from} {y}H{to}");
        if !cut {
            path += &format!("m{back} -3L{to} {y}l{back} 3");
        }
    }
    path
}

/// A light ground for a width, so that no shading runs through it.
fn ground(font: Font, centre: i32, baseline: i32, width: &str) -> Frame {
    let half = font.width(width) / 2 + 2;
    Frame {
        left: centre - half,
        right: centre + half,
        top: baseline - font.size,
        bottom: baseline + 3,
    }
}

/// Draws what cells of a row share, above the cells.
pub fn draw_overlaps(canvas: &mut Canvas, row: &Row, band: &Band, track: &Track) {
    for overlap in &row.overlaps {
        if let Some(piece) = band.piece(overlap) {
            let (number, from) = (row.number, overlap.from);
            let title = format!(
                "row {number}: cells share {} from site {from}",
                count(overlap.sites() as usize, "site")
            );
            let (top, bottom) = track.body();
            let frame = piece.frame(top, bottom);
            canvas.titled(&title, |canvas| canvas.rect("over", &frame));
        }
    }
}
