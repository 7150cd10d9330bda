//! The signs that the picture has and what they mean, below it.

use super::canvas::{Anchor, Canvas};
use super::cells::mirror_mark;
use super::scale::Frame;
use super::steps::mark;
use super::text::PLAIN;

const LEFT: i32 = 16;
const LINE: i32 = 22;

/// The room of a sign, and between entries.
const SIGN: i32 = 30;
const APART: i32 = 18;

/// A sign in a frame.
#[derive(Clone, Copy)]
enum Sign {
    Shape(&'static str),
    Fixed,
    Fins(&'static str),
    Mirror,
    Step(&'static str),
    Shift,
}

impl Sign {
    /// The class of its shapes.
    fn class(self) -> &'static str {
        match self {
            Sign::Shape(class) | Sign::Fins(class) | Sign::Step(class) => class,
            Sign::Fixed => "fixed",
            Sign::Mirror => "mir",
            Sign::Shift => "ghost",
        }
    }
}

const ENTRIES: [(Sign, &str); 16] = [
    (Sign::Shape("l0"), "cell in layout 0"),
    (Sign::Shape("l1"), "in layout 1"),
    (Sign::Fixed, "fixed"),
    (Sign::Mirror, "mirrored"),
    (Sign::Fins("p"), "fins P"),
    (Sign::Fins("n"), "fins N"),
    (Sign::Step("s0"), "step, cells abut"),
    (Sign::Step("s2"), "step at a gap of 2 or 3"),
    (Sign::Shape("fill"), "filler in 2 or 3 sites"),
    (Sign::Shape("wide"), "filler in 4 or more, no steps"),
    (Sign::Shape("one"), "one empty site"),
    (Sign::Shape("over"), "shared sites"),
    (Sign::Shape("past"), "past the row"),
    (Sign::Shape("lx"), "layout or mark not offered"),
    (Sign::Shape("named"), "breaks the rule"),
    (Sign::Shift, "given site and shift"),
];

/// Draws the key from a height on and returns where it ends.
pub fn draw(canvas: &mut Canvas, width: i32, top: i32) -> i32 {
    let (mut x, mut y) = (LEFT, top);
    for (sign, words) in ENTRIES {
        if !canvas.has(sign.class()) {
            continue;
        }
        let room = SIGN + PLAIN.width(words) + APART;
        if x > LEFT && x + room > width {
            (x, y) = (LEFT, y + LINE);
        }
        draw_sign(canvas, &sign, x, y);
        canvas.text(PLAIN, Anchor::Start, x + SIGN, y + 11, words);
        x += room;
    }
    y + LINE
}

fn draw_sign(canvas: &mut Canvas, sign: &Sign, left: i32, top: i32) {
    let frame = Frame {
        left,
        right: left + SIGN - 8,
        top,
        bottom: top + 14,
    };
    let (x, y) = (frame.centre(), top + 7);
    match sign {
        Sign::Shape(class) => canvas.rect(class, &frame),
        Sign::Fixed => {
            canvas.rect("l0", &frame);
            canvas.rect("fixed", &frame);
        }
        Sign::Fins(class) => canvas.path(class, &format!("M{x} {top}h4v14h-4z")),
        Sign::Mirror => canvas.path("mir", &mirror_mark(x, y)),
        // The marks of the key have another class, so that those of steps can be counted.
        Sign::Step(class) => canvas.path(&format!("key {class}"), &mark(x, y)),
        Sign::Shift => {
            let ghost = Frame {
                right: left + 11,
                ..frame
            };
            canvas.rect("ghost", &ghost);
            let end = frame.right;
            canvas.path(
                "shift",
                &format!("M{} {y}H{end}m-4 -3L{end} {y}l-4 3", left + 11),
            );
        }
    }
}
