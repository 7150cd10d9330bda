//! A line's form: its lead, its end, and numbers in all other fields.

use super::echo::quoted;
use super::field::{called, Field};
use super::line::Line;
use super::number;

/// No line that is accepted has more numbers; a longer one is counted and not kept.
const MOST: usize = 22;

/// What a kind of line looks like.
pub struct Form {
    /// What the first field may be, and which lines begin with it; none for lines without a lead.
    pub lead: Option<(&'static [&'static str], &'static str)>,
    /// The fields behind the lead, as far as that and the numbers before them decide.
    pub fields_of: fn(&Numbers) -> Vec<Field>,
}

/// The numbers of a line that is in its form.
pub struct Numbers {
    /// The lead that stands before them, empty for lines without one.
    pub lead: &'static str,
    /// The first ones, in their order.
    pub values: Vec<u32>,
    /// How many fields the line has, with the lead.
    pub fields: usize,
}

impl Form {
    /// The numbers of a line, or what is wrong with its form.
    pub fn numbers(&self, line: &Line) -> Result<Numbers, String> {
        if let Some(words) = line.foreign() {
            return Err(words);
        }
        if line.body().is_empty() {
            return Err("the line is empty".into());
        }
        let mut fields = line.fields().zip(1..);
        let mut lead = "";
        if let Some((leads, whose)) = self.lead {
            let found = fields.next().map(|(field, _)| field).unwrap_or_default();
            let is_it = |lead: &&&str| lead.as_bytes() == found;
            lead = leads.iter().find(is_it).ok_or_else(|| {
                let (found, leads) = (quoted(found), leads.join(" or "));
                format!("field 1 (lead) is {found}; {whose} begins with {leads}")
            })?;
        }
        if let Some(words) = line.unended() {
            return Err(words);
        }
        let mut numbers = Numbers {
            lead,
            values: Vec::new(),
            fields: usize::from(self.lead.is_some()),
        };
        for (field, at) in fields {
            let value =
                number::read(field).map_err(|form| self.no_number(&numbers, at, field, form))?;
            numbers.keep(value);
        }
        Ok(numbers)
    }

    /// A field that is no number, called by its name if the numbers before it give it one.
    fn no_number(&self, before: &Numbers, at: usize, field: &[u8], form: &str) -> String {
        let fields = (self.fields_of)(before);
        let place = at - 1 - usize::from(self.lead.is_some());
        let name = called(at, fields.get(place));
        match field {
            [] => format!("{name} is empty; {form}"),
            _ => format!("{name} is {}; {form}", quoted(field)),
        }
    }
}

impl Numbers {
    fn keep(&mut self, value: u32) {
        self.fields += 1;
        if self.values.len() < MOST {
            self.values.push(value);
        }
    }
}

/// So many of a thing.
pub fn count(number: usize, thing: &str) -> String {
    match number {
        1 => format!("1 {thing}"),
        _ => format!("{number} {thing}s"),
    }
}
