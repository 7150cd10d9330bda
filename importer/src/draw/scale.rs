//! Where things stand on the picture: bands of a fixed number of sites below each other, and the
//! tracks of a band, one for each row.

use super::row::Span;
use crate::desk::Diffusion;

/// How wide a site is.
pub const SITE: i32 = 16;

/// How many sites a band has; a longer row goes on in the next band.
pub const BAND: u32 = 60;

/// Room left and right of a band.
pub const LEFT: i32 = 84;
pub const RIGHT: i32 = 20;

/// A track from above: the strip of cell numbers, P, the middle, N, and the foot with mirror marks.
pub const STRIP: i32 = 15;
const HALF: i32 = 31;
const MIDDLE: i32 = 4;
const FOOT: i32 = 11;
pub const TRACK: i32 = STRIP + HALF + MIDDLE + HALF + FOOT;

/// The most that one fin takes.
const TALLEST_FIN: i32 = 7;

/// A part of the picture.
#[derive(Clone, Copy, Debug, PartialEq, Eq)]
pub struct Frame {
    pub left: i32,
    pub right: i32,
    pub top: i32,
    pub bottom: i32,
}

impl Frame {
    pub fn width(&self) -> i32 {
        self.right - self.left
    }

    pub fn height(&self) -> i32 {
        self.bottom - self.top
    }

    pub fn centre(&self) -> i32 {
        (self.left + self.right) / 2
    }

    pub fn meets(&self, other: &Frame) -> bool {
        self.left < other.right
            && other.left < self.right
            && self.top < other.bottom
            && other.top < self.bottom
    }
}

/// Sites that are drawn in one line.
#[derive(Clone, Copy, Debug, PartialEq, Eq)]
pub struct Band {
    pub sites: Span,
}

/// What is to be seen of some sites in a band.
#[derive(Clone, Copy, Debug, PartialEq, Eq)]
pub struct Piece {
    pub left: i32,
    pub right: i32,
    /// Whether they begin before the band, and end behind it.
    pub cut: [bool; 2],
}

impl Band {
    /// The left side of a site; of one outside the band, the band's side.
    pub fn x(&self, site: u32) -> i32 {
        let site = site.clamp(self.sites.from, self.sites.end);
        LEFT + SITE * (site - self.sites.from) as i32
    }

    pub fn piece(&self, span: &Span) -> Option<Piece> {
        span.meets(&self.sites).then(|| Piece {
            left: self.x(span.from),
            right: self.x(span.end),
            cut: [span.from < self.sites.from, self.sites.end < span.end],
        })
    }

    /// Whether a border between sites belongs to the band: a band's last one is the next band's.
    pub fn has(&self, site: u32) -> bool {
        (self.sites.from..self.sites.end).contains(&site)
    }
}

impl Piece {
    pub fn frame(&self, top: i32, bottom: i32) -> Frame {
        Frame {
            left: self.left,
            right: self.right,
            top,
            bottom,
        }
    }
}

/// A band, or sites of several bands with nothing to be seen.
#[derive(Clone, Copy, Debug, PartialEq, Eq)]
pub enum Stretch {
    Drawn(Band),
    Empty(Span),
}

/// The bands of rows of so many sites. Those in which nothing is to be seen are told in one line,
/// and left out past the rows' end.
pub fn stretches(sites: u32, seen: &[Span]) -> Vec<Stretch> {
    let reach = seen.iter().map(|span| span.end).fold(sites, u32::max);
    let mut stretches = Vec::new();
    for from in (0..reach).step_by(BAND as usize) {
        let end = (from + BAND).min(reach);
        let band = Span { from, end };
        let stretch = if from == 0 || seen.iter().any(|span| span.meets(&band)) {
            Stretch::Drawn(Band { sites: band })
        } else if from < sites {
            let end = end.min(sites);
            Stretch::Empty(Span { from, end })
        } else {
            continue;
        };
        join(&mut stretches, stretch);
    }
    stretches
}

/// Adds a stretch; empty ones become one.
fn join(stretches: &mut Vec<Stretch>, stretch: Stretch) {
    match (stretches.last_mut(), stretch) {
        (Some(Stretch::Empty(before)), Stretch::Empty(more)) if before.end == more.from => {
            before.end = more.end;
        }
        _ => stretches.push(stretch),
    }
}

/// Where a row is drawn.
#[derive(Clone, Copy, Debug)]
pub struct Track {
    pub top: i32,
    /// How high a fin is.
    pub fin: i32,
}

impl Track {
    /// How high a fin is drawn if the highest height is this.
    pub fn fin(highest: u32) -> i32 {
        ((HALF - 1) / highest.max(1) as i32).clamp(2, TALLEST_FIN)
    }

    pub fn bottom(&self) -> i32 {
        self.top + TRACK
    }

    /// The top and the bottom of what is between the numbers and the foot.
    pub fn body(&self) -> (i32, i32) {
        (self.top + STRIP + 2, self.bottom() - FOOT - 1)
    }

    /// The baseline of cell numbers.
    pub fn number_line(&self) -> i32 {
        self.top + STRIP - 4
    }

    /// Where fins of a kind begin: P goes up from there, N down.
    pub fn base(&self, kind: Diffusion) -> i32 {
        match kind {
            Diffusion::P => self.top + STRIP + HALF,
            Diffusion::N => self.top + STRIP + HALF + MIDDLE,
        }
    }

    /// Where so many fins end.
    pub fn tip(&self, kind: Diffusion, height: u32) -> i32 {
        let length = self.fin * height as i32;
        match kind {
            Diffusion::P => self.base(kind) - length,
            Diffusion::N => self.base(kind) + length,
        }
    }

    /// The baseline of a small text beside fins of a kind.
    pub fn text_line(&self, kind: Diffusion) -> i32 {
        match kind {
            Diffusion::P => self.base(kind) - 4,
            Diffusion::N => self.base(kind) + 11,
        }
    }
}

#[cfg(test)]
mod tests {
    use super::*;

    fn span(from: u32, end: u32) -> Span {
        Span { from, end }
    }

    #[test]
    fn bands_with_nothing_to_be_seen_become_one_line() {
        let drawn = |from, end| {
            Stretch::Drawn(Band {
                sites: span(from, end),
            })
        };
        let empty = |from, end| Stretch::Empty(span(from, end));
        assert_eq!(stretches(20, &[]), [drawn(0, 20)]);
        assert_eq!(stretches(200, &[]), [drawn(0, 60), empty(60, 200)]);
        let seen = [span(130, 140), span(400, 404), span(59, 60)];
        assert_eq!(
            stretches(250, &seen),
            [
                drawn(0, 60),
                empty(60, 120),
                drawn(120, 180),
                empty(180, 250),
                drawn(360, 404)
            ]
        );
    }

    #[test]
    fn a_piece_is_cut_at_the_bands_sides() {
        let band = Band {
            sites: span(60, 120),
        };
        assert_eq!(band.piece(&span(50, 60)), None);
        let piece = band.piece(&span(58, 130)).expect("it crosses the band");
        assert_eq!(piece.cut, [true, true]);
        assert_eq!((piece.left, piece.right), (LEFT, LEFT + 60 * SITE));
        assert!(band.has(60) && !band.has(120));
    }

    #[test]
    fn the_highest_fins_stay_in_their_half() {
        for highest in 1..=15 {
            let fin = Track::fin(highest);
            let track = Track { top: 100, fin };
            assert!(track.tip(Diffusion::P, highest) >= 100 + STRIP);
            assert!(track.tip(Diffusion::N, highest) <= track.bottom() - FOOT);
        }
    }
}
