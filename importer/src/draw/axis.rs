//! The sites of a band, ticked and numbered, and the empty tracks below them.

use super::canvas::{Anchor, Canvas};
use super::row::Span;
use super::scale::{Band, Track, LEFT, SITE};
use super::text::{NAME, SMALL};
use crate::desk::Diffusion;

/// How high the numbers with their ticks are.
pub const AXIS: i32 = 20;

/// Every so many sites the tick is longer, and every so many it is numbered.
const LONGER: u32 = 5;
const NUMBERED: u32 = 10;

/// Draws ticks that stand on `y`, numbers above them, and the panel's name on the left.
pub fn draw_ticks(canvas: &mut Canvas, band: &Band, y: i32, name: &str) {
    canvas.text(NAME, Anchor::Start, 6, y - 6, name);
    let mut path = String::new();
    for site in band.sites.from..=band.sites.end {
        let length = match site {
            _ if site % NUMBERED == 0 => 8,
            _ if site % LONGER == 0 => 6,
            _ => 3,
        };
        path += &format!("M{} {y}v-{length}", band.x(site));
        // A site is the room right of its tick, so a band's last tick has no number.
        if site % NUMBERED == 0 && band.has(site) {
            let x = band.x(site) + 2;
            canvas.text(SMALL, Anchor::Start, x, y - 6, &site.to_string());
        }
    }
    canvas.path("tick", &path);
}

/// Draws the track of a row as far as the band has sites of it, its name and its kinds on the left.
pub fn draw_track(canvas: &mut Canvas, band: &Band, row: u32, sites: u32, track: &Track) {
    let (top, bottom) = (track.top, track.bottom());
    let row_sites = Span {
        from: 0,
        end: sites,
    };
    let past = Span {
        from: sites,
        end: u32::MAX,
    };
    if let Some(piece) = band.piece(&past) {
        canvas.rect("past", &piece.frame(top, bottom));
    }
    if let Some(piece) = band.piece(&row_sites) {
        canvas.rect("track", &piece.frame(top, bottom));
        draw_grid(canvas, band, sites, track);
        let (left, right) = (piece.left, piece.right);
        canvas.path(
            "rail",
            &format!("M{left} {top}H{right}M{left} {bottom}H{right}"),
        );
        for (x, cut) in [left, right].into_iter().zip(piece.cut) {
            if !cut {
                canvas.path("end", &format!("M{x} {top}V{bottom}"));
            }
        }
    }
    let middle = (track.base(Diffusion::P) + track.base(Diffusion::N)) / 2;
    canvas.text(NAME, Anchor::Start, 6, middle + 4, &format!("row {row}"));
    for (kind, away) in [(Diffusion::P, -8), (Diffusion::N, 14)] {
        let y = track.base(kind) + away;
        canvas.text(SMALL, Anchor::End, LEFT - SITE / 2, y, &kind.to_string());
    }
}

fn draw_grid(canvas: &mut Canvas, band: &Band, sites: u32, track: &Track) {
    let (top, bottom) = (track.top, track.bottom());
    let end = sites.min(band.sites.end);
    let lines = (band.sites.from..end).filter(|site| site % LONGER == 0);
    let path: String = lines
        .map(|site| format!("M{} {top}V{bottom}", band.x(site)))
        .collect();
    canvas.path("grid", &path);
}
