//! A small reader of XML, strict in what it takes: tags balanced, attributes quoted and named once,
//! texts escaped, one root element.

use std::collections::HashMap;

#[derive(Debug)]
pub struct Element {
    pub name: String,
    pub attributes: HashMap<String, String>,
    /// The text directly in it.
    pub text: String,
}

impl Element {
    pub fn attribute(&self, name: &str) -> &str {
        self.attributes.get(name).map_or("", |value| value)
    }

    pub fn has_class(&self, class: &str) -> bool {
        self.attribute("class").split(' ').any(|has| has == class)
    }

    pub fn number(&self, name: &str) -> f64 {
        let value = self.attribute(name);
        let number = value.parse();
        number.unwrap_or_else(|_| panic!("{name}={value:?} of {} is no number", self.name))
    }
}

/// The elements in the order of their opening tags.
pub fn elements(text: &str) -> Vec<Element> {
    let mut reader = Reader::default();
    let mut rest = text;
    while let Some((before, tag_and_more)) = rest.split_once('<') {
        reader.text(before);
        let (tag, more) = tag_and_more.split_once('>').expect("a tag ends");
        assert!(!tag.contains('<'), "a tag in a tag: {tag}");
        reader.tag(tag);
        rest = more;
    }
    reader.text(rest);
    assert!(reader.open.is_empty(), "{:?} stays open", reader.open);
    assert!(!reader.elements.is_empty(), "there is no element");
    reader.elements
}

#[derive(Default)]
struct Reader {
    elements: Vec<Element>,
    open: Vec<usize>,
}

impl Reader {
    fn tag(&mut self, tag: &str) {
        if let Some(name) = tag.strip_prefix('/') {
            let last = self.open.pop().expect("an element is open");
            assert_eq!(self.elements[last].name, name, "tags are not balanced");
            return;
        }
        let (tag, closed) = match tag.strip_suffix('/') {
            Some(tag) => (tag, true),
            None => (tag, false),
        };
        let (name, attributes) = tag.split_once(' ').unwrap_or((tag, ""));
        assert!(is_name(name), "{name:?} is no name");
        let first = self.elements.is_empty();
        assert!(first || !self.open.is_empty(), "two roots");
        self.elements.push(Element {
            name: name.into(),
            attributes: self::attributes(attributes),
            text: String::new(),
        });
        if !closed {
            self.open.push(self.elements.len() - 1);
        }
    }

    fn text(&mut self, text: &str) {
        let plain = unescaped(text);
        match self.open.last() {
            Some(&at) => self.elements[at].text += &plain,
            None => assert!(text.trim().is_empty(), "{text:?} outside the root"),
        }
    }
}

fn is_name(name: &str) -> bool {
    let letter = |letter: char| letter.is_ascii_alphanumeric() || "-_:".contains(letter);
    name.starts_with(|first: char| first.is_ascii_alphabetic()) && name.chars().all(letter)
}

fn attributes(mut rest: &str) -> HashMap<String, String> {
    let mut attributes = HashMap::new();
    while !rest.trim().is_empty() {
        let (name, more) = rest.trim_start().split_once("=\"").expect("a quoted value");
        assert!(is_name(name), "{name:?} is no name");
        let (value, more) = more.split_once('"').expect("a quoted value ends");
        let before = attributes.insert(name.to_string(), unescaped(value));
        assert!(before.is_none(), "{name} stands twice");
        assert!(more.is_empty() || more.starts_with(' '), "{more:?}");
        rest = more;
    }
    attributes
}

/// The text that is meant. Only XML's own names may stand behind an ampersand.
fn unescaped(text: &str) -> String {
    let mut parts = text.split('&');
    let mut plain = parts.next().unwrap_or("").to_string();
    for part in parts {
        let (name, more) = part.split_once(';').expect("an escape ends");
        plain.push(match name {
            "amp" => '&',
            "lt" => '<',
            "gt" => '>',
            "quot" => '"',
            _ => panic!("{name:?} is no escape"),
        });
        plain += more;
    }
    plain
}

/// The reader itself must refuse what is not well-formed.
#[test]
fn what_is_not_well_formed_is_refused() {
    let [root, inner] = &elements("<a b=\"1 &lt; 2\"><c/>x &amp; y</a>\n")[..] else {
        panic!("two elements");
    };
    assert_eq!((root.attribute("b"), &*root.text), ("1 < 2", "x & y"));
    assert_eq!(inner.name, "c");
    let bad = [
        "",
        "<a>",
        "</a>",
        "<a><b></a></b>",
        "<a/><b/>",
        "<a/>x",
        "<a b=1/>",
        "<a b=\"1\" b=\"2\"/>",
        "<a b=\"1\"c=\"2\"/>",
        "<a>1 < 2</a>",
        "<a>x & y</a>",
        "<a>&nbsp;</a>",
        "<a b=\"<\"/>",
    ];
    for text in bad {
        let read = std::panic::catch_unwind(|| elements(text).len());
        assert!(read.is_err(), "{text} is taken");
    }
}
