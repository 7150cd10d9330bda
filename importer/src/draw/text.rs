//! Texts of the picture: escaped, measured and cut into lines.

/// A kind of text: its class in the style, and its size.
#[derive(Clone, Copy, Debug, PartialEq, Eq)]
pub struct Font {
    pub class: &'static str,
    pub size: i32,
    pub bold: bool,
    pub colour: &'static str,
}

const fn font(class: &'static str, size: i32, bold: bool, colour: &'static str) -> Font {
    Font {
        class,
        size,
        bold,
        colour,
    }
}

pub const HEADING: Font = font("th", 15, true, "#111827");
pub const NAME: Font = font("tn", 11, true, "#111827");
pub const PLAIN: Font = font("tp", 11, false, "#1f2937");
pub const ALARM: Font = font("tr", 11, true, "#b00020");
pub const NUMBER: Font = font("tc", 10, true, "#111827");
pub const SMALL: Font = font("ts", 9, false, "#374151");

/// All of them, for the style.
pub const FONTS: [Font; 6] = [HEADING, NAME, PLAIN, ALARM, NUMBER, SMALL];

impl Font {
    /// How wide a text is at most: letters of the typefaces named in the style are this wide.
    pub fn width(&self, text: &str) -> i32 {
        let letters = text.chars().count() as i32;
        (62 * self.size * letters + 99) / 100
    }

    /// Cuts a text into lines that are at most so wide, between words where it can be.
    pub fn lines(&self, text: &str, most: i32) -> Vec<String> {
        let mut lines = vec![String::new()];
        for word in text.split(' ') {
            let line = lines.last_mut().filter(|line| !line.is_empty());
            match line {
                Some(line) if self.width(&format!("{line} {word}")) <= most => {
                    line.push(' ');
                    line.push_str(word);
                }
                Some(_) => lines.push(word.into()),
                None => lines = vec![word.into()],
            }
        }
        lines
    }
}

/// A text for XML, in an element or between double quotes.
pub fn escaped(text: &str) -> String {
    let mut escaped = String::with_capacity(text.len());
    for letter in text.chars() {
        match letter {
            '&' => escaped.push_str("&amp;"),
            '<' => escaped.push_str("&lt;"),
            '>' => escaped.push_str("&gt;"),
            '"' => escaped.push_str("&quot;"),
            _ => escaped.push(letter),
        }
    }
    escaped
}

#[cfg(test)]
mod tests {
    use super::*;

    #[test]
    fn what_xml_reserves_is_escaped() {
        assert_eq!(
            escaped("a < b & \"c\" > d"),
            "a &lt; b &amp; &quot;c&quot; &gt; d"
        );
    }

    #[test]
    fn lines_keep_all_words_and_their_width() {
        let text = "cells 1 and 2 share sites 5 to 7 in row 0: cell 1 takes sites 2 to 7";
        let lines = PLAIN.lines(text, 200);
        assert!(lines.len() > 1, "{lines:?}");
        assert!(lines.iter().all(|line| PLAIN.width(line) <= 200));
        assert_eq!(lines.join(" "), text);
        assert_eq!(PLAIN.lines("short", 200), ["short"]);
    }
}
