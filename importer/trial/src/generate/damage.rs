//! Damage to a job text: each kind that the scope names, and bytes changed at random.

use super::Random;

/// One kind of damage. Each is done to one line of a text.
#[derive(Clone, Copy, Debug, PartialEq, Eq)]
pub enum Damage {
    Lead,
    LineFeedGone,
    LineFeedTwice,
    CarriageReturn,
    NoNumber,
    FieldGone,
    FieldsGone,
    FieldMore,
    FieldsMore,
    Row,
    Layouts,
    OtherField,
    LastField,
    GivenFalls,
    LineGone,
    LineTwice,
    ByteOther,
    ByteMore,
    ByteGone,
    TextCut,
    TextMore,
}

impl Damage {
    pub const ALL: [Damage; 21] = [
        Damage::Lead,
        Damage::LineFeedGone,
        Damage::LineFeedTwice,
        Damage::CarriageReturn,
        Damage::NoNumber,
        Damage::FieldGone,
        Damage::FieldsGone,
        Damage::FieldMore,
        Damage::FieldsMore,
        Damage::Row,
        Damage::Layouts,
        Damage::OtherField,
        Damage::LastField,
        Damage::GivenFalls,
        Damage::LineGone,
        Damage::LineTwice,
        Damage::ByteOther,
        Damage::ByteMore,
        Damage::ByteGone,
        Damage::TextCut,
        Damage::TextMore,
    ];

    /// Does each damage to each of the first lines of a text, one at a time, and shows the text.
    pub fn each(random: &mut Random, text: &[u8], lines: usize, mut show: impl FnMut(&[u8])) {
        for line in 0..lines {
            for damage in Damage::ALL {
                let mut text = text.to_vec();
                damage.inflict(random, &mut text, line);
                show(&text);
            }
        }
    }

    /// Does this damage to a line, counted from 0. A text without that line stays as it is.
    pub fn inflict(self, random: &mut Random, text: &mut Vec<u8>, line: usize) {
        let Some(line) = Line::find(text, line) else {
            return;
        };
        match self {
            Damage::Lead => line.replace(text, 0, random.pick(&LEADS)),
            Damage::LineFeedGone => insert(text, line.end..line.end + 1, b""),
            Damage::LineFeedTwice => insert(text, line.end..line.end, b"\n"),
            Damage::CarriageReturn => insert(text, line.end..line.end, b"\r"),
            Damage::NoNumber => line.replace(text, line.any(random), random.pick(&NO_NUMBERS)),
            Damage::FieldGone => line.cut(text, line.any(random), 1),
            Damage::FieldsGone => line.cut(text, line.any(random), 99),
            Damage::FieldMore => line.replace(text, line.any(random), b"1,1"),
            Damage::FieldsMore => insert(text, line.end..line.end, b",1,2,3,4,5"),
            Damage::Row => line.replace(text, 1, random.pick(&ROWS)),
            Damage::Layouts => line.replace(text, 4, random.pick(&LAYOUTS)),
            Damage::OtherField => line.replace(text, line.any(random), random.pick(&VALUES)),
            Damage::LastField => line.replace(text, line.last(), random.pick(&VALUES)),
            Damage::GivenFalls => line.replace(text, 2, random.pick(&GIVEN)),
            Damage::LineGone => insert(text, line.start..line.end + 1, b""),
            Damage::LineTwice => {
                let copy = text[line.start..=line.end.min(text.len() - 1)].to_vec();
                insert(text, line.start..line.start, &copy);
            }
            Damage::ByteOther => {
                let at = line.byte(random);
                insert(text, at..at + 1, &[random.pick(&BYTES)]);
            }
            Damage::ByteMore => {
                let at = line.byte(random);
                insert(text, at..at, &[random.pick(&BYTES)]);
            }
            Damage::ByteGone => {
                let at = line.byte(random);
                insert(text, at..at + 1, b"");
            }
            Damage::TextCut => text.truncate(line.byte(random)),
            Damage::TextMore => text.extend_from_slice(random.pick(&TAILS)),
        }
    }
}

const LEADS: [&[u8]; 18] = [
    b"",
    b"J",
    b"C",
    b"F",
    b"f",
    b"FF",
    b"FC",
    b"CF",
    b"K",
    b"k",
    b"KJ",
    b"JK",
    b"KK",
    b"c",
    b"JJ",
    b"CC",
    b" C",
    b"\xc3\x87",
];
const NO_NUMBERS: [&[u8]; 16] = [
    b"", b"00", b"01", b"007", b"0000", b"12345", b"10000", b"99999", b"-1", b"+1", b" 1", b"1 ",
    b"x", b"1.0", b"\0", b"\xff",
];
const ROWS: [&[u8]; 5] = [b"0", b"1", b"2", b"3", b"9999"];
const LAYOUTS: [&[u8]; 6] = [b"0", b"1", b"2", b"3", b"4", b"9999"];
const GIVEN: [&[u8]; 5] = [b"0", b"1", b"7", b"1023", b"1024"];
const VALUES: [&[u8]; 16] = [
    b"0", b"1", b"2", b"3", b"7", b"8", b"15", b"16", b"64", b"65", b"1000", b"1001", b"1023",
    b"1024", b"1025", b"9999",
];
const TAILS: [&[u8]; 8] = [
    b"\n",
    b"\0",
    b"C",
    b"F",
    b"C,0,0,0,1,1,1,1,1,1\n",
    b"F,0,0,0,1,1,1,1,1,1\n",
    b"\r\n",
    b"0",
];
const BYTES: [u8; 16] = [
    b'\n', b'\r', 0, b',', b'0', b'1', b'9', b' ', b'-', b'C', b'F', b'J', b'K', b'/', b':', 0xb1,
];

/// Where a line stands: its first byte, its line feed (or the text's end), its fields.
struct Line {
    start: usize,
    end: usize,
    fields: Vec<std::ops::Range<usize>>,
}

impl Line {
    fn find(text: &[u8], line: usize) -> Option<Line> {
        let mut start = 0;
        for _ in 0..line {
            start += 1 + text[start..].iter().position(|&byte| byte == b'\n')?;
        }
        if start == text.len() {
            return None;
        }
        let length = text[start..].iter().position(|&byte| byte == b'\n');
        let end = length.map_or(text.len(), |length| start + length);
        let mut fields = Vec::new();
        let mut at = start;
        for field in text[start..end].split(|&byte| byte == b',') {
            fields.push(at..at + field.len());
            at += field.len() + 1;
        }
        Some(Line { start, end, fields })
    }

    /// Any field.
    fn any(&self, random: &mut Random) -> usize {
        random.below(self.fields.len())
    }

    /// The last field.
    fn last(&self) -> usize {
        self.fields.len() - 1
    }

    /// Any place in the line, its end included.
    fn byte(&self, random: &mut Random) -> usize {
        self.start + random.below(self.end - self.start + 1)
    }

    fn replace(&self, text: &mut Vec<u8>, field: usize, by: &[u8]) {
        if let Some(range) = self.fields.get(field) {
            insert(text, range.clone(), by);
        }
    }

    /// Cuts out at most so many fields, each with the comma before it.
    fn cut(&self, text: &mut Vec<u8>, field: usize, count: usize) {
        let last = (field + count).min(self.fields.len()) - 1;
        let start = self.fields[field].start.max(self.start + 1) - 1;
        insert(text, start..self.fields[last].end, b"");
    }
}

/// Puts bytes in the place of a part of a text, as far as the text has that part.
fn insert(text: &mut Vec<u8>, part: std::ops::Range<usize>, bytes: &[u8]) {
    let end = part.end.min(text.len());
    text.splice(part.start.min(end)..end, bytes.iter().copied());
}
