//! Rows as a picture (SVG): cells to scale with their fins, steps in red, gaps, and shifts from the
//! given sites, in bands of 60 sites.
//!
//! What the picture says of cost and legality is what Score and Place say. Its shapes are found
//! here, from the texts that these accept as [`crate::explain`] reads them, with the gaps and the
//! steps of [`crate::desk`]; a test holds the marks of steps against Score's number.

mod axis;
mod canvas;
mod cells;
mod gaps;
mod ghosts;
mod key;
mod legend;
mod panel;
mod row;
mod scale;
mod stand;
mod steps;
mod style;
mod text;

use crate::explain::{read_job, Job, Layout};
use crate::{read, Refused};
use axis::AXIS;
use canvas::{Anchor, Canvas};
use ghosts::Strip;
use legend::Pen;
use panel::Panel;
use scale::{stretches, Band, Frame, Stretch, Track, BAND, LEFT, RIGHT, SITE, TRACK};
pub(crate) use text::escaped;
use text::PLAIN;

/// The refusal of a job that has no legal placement.
const NO_PLACEMENT: u32 = 8;

/// Room between the rows of a pair, and between bands.
const ROWS_APART: i32 = 5;
const BANDS_APART: i32 = 14;

/// Draws a placement of a job, or its given rows if there is none; with `cheapest` a cheapest
/// placement below it, if one is legal. Refused is what Read or Score refuses.
pub fn draw(job: &[u8], placement: Option<&[u8]>, cheapest: bool) -> Result<String, Refused> {
    read(job)?;
    let text = job;
    // Read took it, and both take the same texts.
    let job = read_job(text).map_err(|reason| reason.answer)?;
    let mut panels = vec![Panel::of(&job, text, placement)?];
    let mut none = None;
    if cheapest {
        match Panel::cheapest(&job, text) {
            Ok(panel) => panels.push(panel),
            Err(refused) if refused.number == NO_PLACEMENT => none = Some(refused),
            Err(refused) => return Err(refused),
        }
    }
    let picture = Picture {
        job: &job,
        panels,
        none,
    };
    Ok(picture.drawn())
}

struct Picture<'job> {
    job: &'job Job,
    panels: Vec<Panel<'job>>,
    /// Why there is no cheapest placement.
    none: Option<Refused>,
}

impl Picture<'_> {
    fn drawn(&self) -> String {
        let seen: Vec<_> = self.panels.iter().flat_map(Panel::seen).collect();
        let stretches = stretches(self.job.header.sites, &seen);
        let width = width(&stretches).max(legend::narrowest(self.job));
        let mut canvas = Canvas::default();
        let pen = Pen::new(&mut canvas, self.job, width);
        let mut y = pen.write(self.job, &self.panels, self.none.as_ref());
        for stretch in &stretches {
            y += BANDS_APART;
            y = match stretch {
                Stretch::Drawn(band) => self.draw_band(&mut canvas, band, y),
                Stretch::Empty(span) => {
                    let (from, last) = (span.from, span.end - 1);
                    let words = format!("sites {from} to {last}: empty");
                    canvas.text(PLAIN, Anchor::Start, LEFT, y + 12, &words);
                    y + 16
                }
            };
            canvas.lay_texts();
        }
        y = key::draw(&mut canvas, width, y + BANDS_APART + 4);
        self.framed(canvas, width, y + 8)
    }

    /// All panels of a band below each other. Returns where they end.
    fn draw_band(&self, canvas: &mut Canvas, band: &Band, top: i32) -> i32 {
        let mut y = top;
        for panel in &self.panels {
            y = self.draw_panel(canvas, panel, band, y) + 8;
        }
        y
    }

    fn draw_panel(&self, canvas: &mut Canvas, panel: &Panel, band: &Band, top: i32) -> i32 {
        let strips = [0, 1].map(|row| Strip::of(panel, row, band));
        let [above, below] = &strips;
        let axis = top + AXIS;
        axis::draw_ticks(canvas, band, axis, panel.name);
        above.draw(canvas, band, axis);
        let fin = Track::fin(highest(self.job));
        let first = axis + above.height() + 1;
        let track = |row| Track {
            top: first + row as i32 * (TRACK + ROWS_APART),
            fin,
        };
        let tracks: Vec<Track> = (0..self.job.header.rows).map(track).collect();
        for (row, track) in panel.rows.iter().zip(&tracks) {
            axis::draw_track(canvas, band, row.number, self.job.header.sites, track);
            gaps::draw(canvas, row, band, track);
        }
        cells::draw(canvas, panel, band, &tracks);
        for (row, track) in panel.rows.iter().zip(&tracks) {
            gaps::draw_overlaps(canvas, row, band, track);
            steps::draw(canvas, row, band, track);
        }
        let bottom = tracks.last().map_or(first, Track::bottom) + 2;
        below.draw(canvas, band, bottom);
        bottom + below.height()
    }

    /// The whole file around what was drawn.
    fn framed(&self, canvas: Canvas, width: i32, height: i32) -> String {
        let heading = escaped(&legend::heading(self.job));
        let said = |panel: &Panel| format!("{}: {} ", panel.name, panel.said.words());
        let mut words: String = self.panels.iter().map(said).collect();
        if let Some(refused) = self.none {
            words += &format!("cheapest: {}. ", refused.reason());
        }
        let words = escaped(words.trim_end());
        let paper = Frame {
            left: 0,
            right: width,
            top: 0,
            bottom: height,
        };
        let mut sheet = Canvas::default();
        sheet.rect("paper", &paper);
        format!(
            "<svg xmlns=\"http://www.w3.org/2000/svg\" width=\"{width}\" height=\"{height}\" \
             viewBox=\"0 0 {width} {height}\" role=\"img\" aria-labelledby=\"title desc\">\n\
             <title id=\"title\">{heading}</title>\n<desc id=\"desc\">{words}</desc>\n{}{}{}</svg>\n",
            style::definitions(),
            sheet.drawn(),
            canvas.drawn(),
        )
    }
}

/// The greatest fin height of all cells, at least 1.
fn highest(job: &Job) -> u32 {
    let layouts = job.cells.iter().flat_map(|cell| &cell.layouts);
    layouts.filter_map(Layout::highest).max().unwrap_or(1)
}

/// How wide the widest band is.
fn width(stretches: &[Stretch]) -> i32 {
    let widest = stretches.iter().map(|stretch| match stretch {
        Stretch::Drawn(band) => band.sites.sites(),
        Stretch::Empty(_) => BAND,
    });
    let sites = widest.max().unwrap_or(BAND) as i32;
    LEFT + SITE * sites + RIGHT
}
