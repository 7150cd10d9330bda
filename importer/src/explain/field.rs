//! What a field is called and which values it may have.

use std::borrow::Cow;

pub struct Field {
    name: Cow<'static, str>,
    low: u32,
    high: u32,
}

impl Field {
    pub fn new(name: impl Into<Cow<'static, str>>, low: u32, high: u32) -> Field {
        let name = name.into();
        Field { name, low, high }
    }

    pub fn name(&self) -> &str {
        &self.name
    }

    /// What to say of a value, if it is out of range, in the field of this number.
    pub fn refuses(&self, number: usize, value: u32) -> Option<String> {
        let Field { low, high, .. } = *self;
        if (low..=high).contains(&value) {
            return None;
        }
        let allowed = match high - low {
            0 => format!("{low}"),
            1 => format!("{low} or {high}"),
            _ => format!("{low} to {high}"),
        };
        let field = called(number, Some(self));
        Some(format!("{field} is {value}; allowed {allowed}"))
    }
}

/// A field by its number, which counts the lead, and by its name if it has one.
pub fn called(number: usize, field: Option<&Field>) -> String {
    match field {
        Some(field) => format!("field {number} ({})", field.name),
        None => format!("field {number}"),
    }
}

/// Tries the fields behind a lead, of which the first is field 2, and tells of the first value
/// that is out of range.
pub fn in_range(fields: &[Field], values: &[u32]) -> Result<(), String> {
    let mut fields = fields.iter().zip(values).zip(2..);
    let refused = fields.find_map(|((field, &value), number)| field.refuses(number, value));
    refused.map_or(Ok(()), Err)
}
