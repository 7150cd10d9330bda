//! What a picture shows, read from its text.

use super::svg::{elements, Element};
use std::collections::HashMap;

/// How wide a letter is for its size in the first typeface of the style, and how far it reaches
/// above and below its line.
const LETTER: f64 = 0.602;
const ABOVE: f64 = 0.76;
const BELOW: f64 = 0.2;

/// No picture is wider.
const WIDEST: f64 = 1064.0;

pub struct Picture {
    elements: Vec<Element>,
}

#[derive(Debug)]
struct Text<'picture> {
    words: &'picture str,
    left: f64,
    right: f64,
    top: f64,
    bottom: f64,
}

impl Picture {
    /// Reads a picture, which must be well-formed.
    pub fn of(text: &str) -> Picture {
        let elements = elements(text);
        Picture { elements }
    }

    fn named<'a>(&'a self, name: &'a str) -> impl Iterator<Item = &'a Element> {
        self.elements
            .iter()
            .filter(move |element| element.name == name)
    }

    /// How many marks of steps there are: those between cells that abut, and those at fillers.
    pub fn steps(&self) -> [usize; 2] {
        ["s0", "s2"].map(|class| {
            let marks = self.named("path").filter(|path| path.has_class(class));
            marks.filter(|path| !path.has_class("key")).count()
        })
    }

    /// The description for those who do not see it.
    pub fn description(&self) -> &str {
        let mut found = self.named("desc");
        &found.next().expect("a description").text
    }

    /// The titles of shapes that begin so.
    pub fn titles(&self, start: &str) -> usize {
        let titles = self.named("title");
        titles.filter(|title| title.text.starts_with(start)).count()
    }

    pub fn has_text(&self, words: &str) -> bool {
        self.named("text").any(|text| text.text == words)
    }

    /// How many shapes have the class.
    pub fn shapes(&self, class: &str) -> usize {
        let shapes = self.elements.iter();
        shapes.filter(|shape| shape.has_class(class)).count()
    }

    /// Whether a shape has the class.
    pub fn has(&self, class: &str) -> bool {
        self.shapes(class) > 0
    }

    /// Checks that it is not too wide, that all boxes and texts are inside, that no texts overlap,
    /// and that there is nothing that runs.
    pub fn check(&self) {
        let root = &self.elements[0];
        let (width, height) = (root.number("width"), root.number("height"));
        assert!(width <= WIDEST, "{width} wide");
        for rect in self.named("rect") {
            let (x, y) = (rect.number("x"), rect.number("y"));
            let inside = x >= 0.0 && x + rect.number("width") <= width;
            assert!(inside, "{rect:?} is outside");
            let inside = y >= 0.0 && y + rect.number("height") <= height;
            assert!(inside, "{rect:?} is outside");
        }
        let texts = self.texts();
        for (at, text) in texts.iter().enumerate() {
            assert!(text.left >= 0.0 && text.right <= width, "{text:?} outside");
            assert!(text.top >= 0.0 && text.bottom <= height, "{text:?} outside");
            for other in &texts[at + 1..] {
                assert!(!text.overlaps(other), "{text:?} overlaps {other:?}");
            }
        }
        for name in ["script", "foreignObject", "image", "a"] {
            assert!(self.named(name).next().is_none(), "{name}");
        }
    }

    fn texts(&self) -> Vec<Text<'_>> {
        let sizes = self.font_sizes();
        let text = |element| Text::of(element, sizes[element.attribute("class")]);
        self.named("text").map(text).collect()
    }

    /// The size of each class of texts, from the style.
    fn font_sizes(&self) -> HashMap<&str, f64> {
        let style = &self.named("style").next().expect("a style").text;
        let rules = style.lines().filter_map(|line| line.split_once('{'));
        let sizes = rules.filter_map(|(class, rule)| {
            let (_, size) = rule.split_once("font-size:")?;
            let (size, _) = size.split_once("px")?;
            Some((class.strip_prefix('.')?, size.parse().ok()?))
        });
        sizes.collect()
    }
}

impl Text<'_> {
    fn of(element: &Element, size: f64) -> Text<'_> {
        let (x, y) = (element.number("x"), element.number("y"));
        let width = LETTER * size * element.text.chars().count() as f64;
        let left = match element.attribute("text-anchor") {
            "" => x,
            "middle" => x - width / 2.0,
            "end" => x - width,
            other => panic!("text-anchor {other}"),
        };
        Text {
            words: &element.text,
            left,
            right: left + width,
            top: y - ABOVE * size,
            bottom: y + BELOW * size,
        }
    }

    fn overlaps(&self, other: &Text) -> bool {
        assert!(!self.words.is_empty());
        self.left < other.right
            && other.left < self.right
            && self.top < other.bottom
            && other.top < self.bottom
    }
}
