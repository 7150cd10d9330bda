//! Cells where they were given, dashed, with an arrow as long as their shift. They stand in strips
//! above row 0 and below row 1, on as many levels as keep them apart.

use super::canvas::{Anchor, Canvas};
use super::panel::Panel;
use super::row::Span;
use super::scale::Band;
use super::text::SMALL;
use crate::board::Stand;

/// How high a level is.
const LEVEL: i32 = 14;

/// The ghosts of a strip that are to be seen in a band, each with its level.
pub struct Strip<'panel> {
    ghosts: Vec<(&'panel Stand<'panel>, usize)>,
    levels: usize,
}

impl<'panel> Strip<'panel> {
    /// Those of a row's cells that are shifted; tall cells are among those of row 0.
    pub fn of(panel: &'panel Panel<'panel>, row: u32, band: &Band) -> Strip<'panel> {
        let in_row = |stand: &&Stand| stand.first_row() == row;
        let shifted = |stand: &&Stand| stand.pose.site != stand.cell.given;
        let seen = |stand: &&Stand| {
            let [from, to] = arrow(stand);
            stand.given_sites().meets(&band.sites) || (from != to && band.has(to))
        };
        let stands = panel.board.stands.iter().filter(in_row);
        let mut stands: Vec<&Stand> = stands.filter(shifted).filter(seen).collect();
        stands.sort_by_key(|stand| whole(stand).from);
        let mut strip = Strip {
            ghosts: Vec::new(),
            levels: 0,
        };
        let mut ends: Vec<u32> = Vec::new();
        for stand in stands {
            let Span { from, end } = whole(stand);
            let level = ends.iter().position(|&taken| taken < from);
            let level = level.unwrap_or_else(|| {
                ends.push(0);
                ends.len() - 1
            });
            ends[level] = end;
            strip.ghosts.push((stand, level));
        }
        strip.levels = ends.len();
        strip
    }

    pub fn height(&self) -> i32 {
        match self.levels {
            0 => 0,
            levels => LEVEL * levels as i32 + 3,
        }
    }

    pub fn draw(&self, canvas: &mut Canvas, band: &Band, top: i32) {
        for &(stand, level) in &self.ghosts {
            let top = top + 2 + LEVEL * level as i32;
            canvas.titled(&words(stand), |canvas| {
                draw_given(canvas, stand, band, top);
                draw_arrow(canvas, stand, band, top + (LEVEL - 2) / 2);
            });
        }
    }
}

/// Where its arrow starts and ends: at the side towards which the cell went.
fn arrow(stand: &Stand) -> [u32; 2] {
    let given = stand.given_sites();
    if stand.pose.site < given.from {
        [given.from, stand.pose.site]
    } else {
        [given.end, given.end + stand.pose.site - given.from]
    }
}

/// The sites of ghost and arrow.
fn whole(stand: &Stand) -> Span {
    let (given, [_, to]) = (stand.given_sites(), arrow(stand));
    Span {
        from: given.from.min(to),
        end: given.end.max(to),
    }
}

fn words(stand: &Stand) -> String {
    let (number, site, given) = (stand.number, stand.pose.site, stand.cell.given);
    let how = if stand.cell.fixed { "fixed" } else { "given" };
    format!("cell {number}: {how} at site {given}, stands at site {site}")
}

fn draw_given(canvas: &mut Canvas, stand: &Stand, band: &Band, top: i32) {
    let Some(piece) = band.piece(&stand.given_sites()) else {
        return;
    };
    let mut frame = piece.frame(top, top + LEVEL - 2);
    frame.left += 1;
    frame.right -= 1;
    canvas.rect("ghost", &frame);
    let number = stand.number.to_string();
    if SMALL.width(&number) <= frame.width() - 2 {
        let y = frame.bottom - 3;
        canvas.text(SMALL, Anchor::Middle, frame.centre(), y, &number);
    }
}

/// The arrow as far as the band shows it; its head stands where it ends.
fn draw_arrow(canvas: &mut Canvas, stand: &Stand, band: &Band, y: i32) {
    let [from, to] = arrow(stand);
    let (start, end) = (band.x(from), band.x(to));
    let back = if from < to { -4 } else { 4 };
    let mut path = format!("M{start} {y}H{end}");
    if (band.sites.from..=band.sites.end).contains(&to) {
        path += &format!("m{back} -3L{end} {y}l{back} 3");
    }
    if start != end {
        canvas.path("shift", &path);
    }
}

#[cfg(test)]
mod tests {
    use super::*;
    use crate::explain::read_job;

    #[test]
    fn ghosts_on_one_level_stand_apart() {
        let cell = |given| format!("C,0,{given},1,1,4,1,1,1,1\n");
        let cells: String = [3, 8, 20].map(cell).concat();
        let text = format!("J,1,40,7,1,1,1,1,1\n{cells}");
        let job = read_job(text.as_bytes()).expect("a job in form");
        let placement = b"5,0,0\n9,0,0\n18,0,0\n";
        let panel = Panel::of(&job, text.as_bytes(), Some(placement)).expect("Score takes it");
        let band = Band {
            sites: Span { from: 0, end: 40 },
        };
        let strip = Strip::of(&panel, 0, &band);
        let levels: Vec<usize> = strip.ghosts.iter().map(|(_, level)| *level).collect();
        // Sites 3 to 8 with the arrow, 8 to 12, 18 to 23.
        assert_eq!(levels, [0, 1, 0]);
        let wholes: Vec<Span> = strip.ghosts.iter().map(|(stand, _)| whole(stand)).collect();
        let span = |from, end| Span { from, end };
        assert_eq!(wholes, [span(3, 9), span(8, 13), span(18, 24)]);
        assert_eq!(Strip::of(&panel, 1, &band).height(), 0);
    }
}
