//! Cells as boxes with their number, layout, mirror mark and the fins at their edges.

use super::canvas::{Anchor, Canvas};
use super::panel::Panel;
use super::scale::{Band, Piece, Track, STRIP};
use super::text::{NUMBER, SMALL};
use crate::board::Stand;
use crate::desk::Diffusion;

/// How wide the fins of an edge are drawn.
const FINS: i32 = 4;

/// How much room a box must have for its fin heights as numbers.
const ROOM_FOR_HEIGHTS: i32 = 60;

/// Draws the cells of a panel that are to be seen in a band.
pub fn draw(canvas: &mut Canvas, panel: &Panel, band: &Band, tracks: &[Track]) {
    for stand in &panel.board.stands {
        if let Some(piece) = band.piece(&stand.sites()) {
            draw_cell(canvas, stand, &piece, tracks);
            draw_number(canvas, stand, &piece, tracks, anchors(panel, stand));
            // Where cells overlap, small texts would not be read.
            if !panel.overlaps(stand) {
                draw_small_texts(canvas, stand, &piece, tracks);
            }
        }
    }
    for stand in panel.board.stands.iter().filter(|stand| panel.names(stand)) {
        let piece = band.piece(&stand.sites());
        if let (Some(piece), Some((top, bottom))) = (piece, height(stand, tracks)) {
            canvas.rect("named", &piece.frame(top, bottom));
        }
    }
}

/// The top and the bottom of a cell: a tall one goes through both rows.
fn height(stand: &Stand, tracks: &[Track]) -> Option<(i32, i32)> {
    let first = tracks.get(stand.first_row() as usize)?;
    let last = match stand.cell.is_tall() {
        true => tracks.last()?,
        false => first,
    };
    Some((first.top + 1, last.bottom() - 1))
}

fn draw_cell(canvas: &mut Canvas, stand: &Stand, piece: &Piece, tracks: &[Track]) {
    let Some((top, bottom)) = height(stand, tracks) else {
        return;
    };
    canvas.titled(&stand.words(), |canvas| {
        draw_box(canvas, stand, piece, top, bottom);
        if stand.cell.fixed {
            // The number's strip stays free of hatching.
            canvas.rect("fixed", &piece.frame(top + STRIP, bottom));
        }
        for (row, track) in (0..).zip(tracks) {
            if stand.cell.stands_in(row) {
                draw_fins(canvas, stand, piece, row, track);
            }
        }
        if stand.is_mirrored() {
            draw_mirror(canvas, piece, bottom);
        }
    });
}

fn draw_box(canvas: &mut Canvas, stand: &Stand, piece: &Piece, top: i32, bottom: i32) {
    let class = match (stand.is_offered(), stand.is_changed()) {
        (false, _) => "lx",
        (true, false) => "l0",
        (true, true) => "l1",
    };
    let frame = piece.frame(top, bottom);
    if piece.cut == [false, false] {
        canvas.rect(class, &frame);
        return;
    }
    canvas.rect(&format!("{class} cut"), &frame);
    let (left, right) = (piece.left, piece.right);
    let mut sides = format!("M{left} {top}H{right}M{left} {bottom}H{right}");
    for (cut, x) in piece.cut.into_iter().zip([left, right]) {
        if !cut {
            sides += &format!("M{x} {top}V{bottom}");
        }
    }
    canvas.path("side", &sides);
}

/// P and N at both edges, as the cell stands.
fn draw_fins(canvas: &mut Canvas, stand: &Stand, piece: &Piece, row: u32, track: &Track) {
    let Some(edges) = stand.edges(row) else {
        return;
    };
    for (kind, class) in [(Diffusion::P, "p"), (Diffusion::N, "n")] {
        let sides = [piece.left + 1, piece.right - 1 - FINS];
        let mut path = String::new();
        for ((edge, x), cut) in edges.into_iter().zip(sides).zip(piece.cut) {
            if !cut {
                let (base, tip) = (track.base(kind), track.tip(kind, kind.height(edge)));
                path += &format!("M{x} {base}V{tip}h{FINS}V{base}z");
            }
        }
        if !path.is_empty() {
            canvas.path(class, &path);
        }
    }
}

/// The heights as numbers, where there is room beside the fins.
fn draw_heights(canvas: &mut Canvas, stand: &Stand, piece: &Piece, row: u32, track: &Track) {
    let Some(edges) = stand.edges(row) else {
        return;
    };
    if piece.right - piece.left < ROOM_FOR_HEIGHTS {
        return;
    }
    let sides = [
        (Anchor::Start, piece.left + FINS + 3),
        (Anchor::End, piece.right - FINS - 3),
    ];
    for ((edge, (anchor, x)), cut) in edges.into_iter().zip(sides).zip(piece.cut) {
        for kind in [Diffusion::P, Diffusion::N] {
            if !cut {
                let height = kind.height(edge).to_string();
                canvas.text(SMALL, anchor, x, track.text_line(kind), &height);
            }
        }
    }
}

/// Two triangles on both sides of an axis, in the foot.
fn draw_mirror(canvas: &mut Canvas, piece: &Piece, bottom: i32) {
    let (x, y) = ((piece.left + piece.right) / 2, bottom - 5);
    canvas.path("mir", &mirror_mark(x, y));
}

/// The mirror mark around a point.
pub fn mirror_mark(x: i32, y: i32) -> String {
    let (left, right) = (x - 2, x + 2);
    format!(
        "M{x} {}v8M{left} {top}v6l-5-3zM{right} {top}v6l5-3z",
        y - 4,
        top = y - 3
    )
}

/// Where a cell's number is best read, and where else: away from what it shares with others.
fn anchors(panel: &Panel, stand: &Stand) -> [Anchor; 3] {
    match (panel.overlaps(stand), panel.overlaps_first(stand)) {
        (false, _) => [Anchor::Middle, Anchor::Start, Anchor::End],
        (true, false) => [Anchor::Start, Anchor::Middle, Anchor::End],
        (true, true) => [Anchor::End, Anchor::Middle, Anchor::Start],
    }
}

/// The number in the strip, at the first anchor where no other text is.
fn draw_number(
    canvas: &mut Canvas,
    stand: &Stand,
    piece: &Piece,
    tracks: &[Track],
    anchors: [Anchor; 3],
) {
    let Some(track) = tracks.get(stand.first_row() as usize) else {
        return;
    };
    let number = stand.number.to_string();
    if NUMBER.width(&number) > piece.right - piece.left - 2 {
        return;
    }
    let y = track.number_line();
    anchors.into_iter().find(|&anchor| {
        let x = match anchor {
            Anchor::Start => piece.left + 2,
            Anchor::Middle => (piece.left + piece.right) / 2,
            Anchor::End => piece.right - 2,
        };
        canvas.text(NUMBER, anchor, x, y, &number)
    });
}

/// The layout in the middle, and the heights beside the fins, where there is room.
fn draw_small_texts(canvas: &mut Canvas, stand: &Stand, piece: &Piece, tracks: &[Track]) {
    for (row, track) in (0..).zip(tracks) {
        if stand.cell.stands_in(row) {
            draw_heights(canvas, stand, piece, row, track);
        }
    }
    let layout = stand.layout_label();
    let room = piece.right - piece.left - 2 * (FINS + 2);
    let track = tracks.get(stand.first_row() as usize);
    if let Some(track) = track.filter(|_| SMALL.width(&layout) <= room) {
        let (x, y) = (
            (piece.left + piece.right) / 2,
            track.text_line(Diffusion::P),
        );
        canvas.text(SMALL, Anchor::Middle, x, y, &layout);
    }
}
