//! The picture as it is written: shapes at once, texts above the shapes of their band, and no text
//! where another one stands.

use super::scale::Frame;
use super::text::{escaped, Font};
use std::fmt::Write;

#[derive(Default)]
pub struct Canvas {
    shapes: String,
    texts: String,
    taken: Vec<Frame>,
}

/// Which point of a text is given.
#[derive(Clone, Copy, Debug, PartialEq, Eq)]
pub enum Anchor {
    Start,
    Middle,
    End,
}

impl Anchor {
    fn attribute(self) -> &'static str {
        match self {
            Anchor::Start => "",
            Anchor::Middle => " text-anchor=\"middle\"",
            Anchor::End => " text-anchor=\"end\"",
        }
    }
}

impl Canvas {
    pub fn rect(&mut self, class: &str, frame: &Frame) {
        self.add(format_args!(
            "<rect class=\"{class}\" x=\"{}\" y=\"{}\" width=\"{}\" height=\"{}\"/>\n",
            frame.left,
            frame.top,
            frame.width(),
            frame.height(),
        ));
    }

    pub fn path(&mut self, class: &str, path: &str) {
        self.add(format_args!("<path class=\"{class}\" d=\"{path}\"/>\n"));
    }

    /// Whether some shape has the class, alone or before others.
    pub fn has(&self, class: &str) -> bool {
        let start = format!(" class=\"{class}");
        let ends = |rest: &str| rest.starts_with(['"', ' ']);
        self.shapes.split(&start).skip(1).any(ends)
    }

    /// Shapes under one title, which viewers show beside them.
    pub fn titled(&mut self, title: &str, draw: impl FnOnce(&mut Canvas)) {
        let title = escaped(title);
        self.add(format_args!("<g><title>{title}</title>\n"));
        draw(self);
        self.add(format_args!("</g>\n"));
    }

    /// A text with its baseline at `y`, unless another one is in its way. Says whether it is there.
    pub fn text(&mut self, font: Font, anchor: Anchor, x: i32, y: i32, text: &str) -> bool {
        let width = font.width(text);
        let left = match anchor {
            Anchor::Start => x,
            Anchor::Middle => x - (width + 1) / 2,
            Anchor::End => x - width,
        };
        let frame = Frame {
            left,
            right: left + width,
            top: y - font.size,
            bottom: y + font.size / 4,
        };
        if self.taken.iter().any(|taken| taken.meets(&frame)) {
            return false;
        }
        self.taken.push(frame);
        let (class, anchor, text) = (font.class, anchor.attribute(), escaped(text));
        let element =
            format!("<text class=\"{class}\" x=\"{x}\" y=\"{y}\"{anchor}>{text}</text>\n");
        self.texts.push_str(&element);
        true
    }

    /// Writes the texts so far above the shapes so far.
    pub fn lay_texts(&mut self) {
        self.shapes.push_str(&self.texts);
        self.texts.clear();
    }

    /// All that was drawn.
    pub fn drawn(mut self) -> String {
        self.lay_texts();
        self.shapes
    }

    fn add(&mut self, element: std::fmt::Arguments) {
        // A string takes every write.
        let _ = self.shapes.write_fmt(element);
    }
}

#[cfg(test)]
mod tests {
    use super::super::text::PLAIN;
    use super::*;

    #[test]
    fn a_text_in_the_way_of_another_is_left_out() {
        let mut canvas = Canvas::default();
        assert!(canvas.text(PLAIN, Anchor::Start, 10, 20, "one < two"));
        assert!(!canvas.text(PLAIN, Anchor::Middle, 30, 22, "three"));
        assert!(canvas.text(PLAIN, Anchor::End, 10, 20, "four"));
        assert!(canvas.text(PLAIN, Anchor::Start, 10, 40, "five"));
        let drawn = canvas.drawn();
        assert!(
            drawn.contains(">one &lt; two<") && !drawn.contains("three"),
            "{drawn}"
        );
    }

    #[test]
    fn texts_are_above_shapes() {
        let mut canvas = Canvas::default();
        canvas.titled("a & b", |canvas| {
            canvas.text(PLAIN, Anchor::Start, 0, 0, "above");
            canvas.path("k", "M0 0h9");
        });
        let drawn = canvas.drawn();
        let start = "<g><title>a &amp; b</title>\n<path class=\"k\" d=\"M0 0h9\"/>\n</g>\n<text ";
        assert!(drawn.starts_with(start), "{drawn}");
    }
}
