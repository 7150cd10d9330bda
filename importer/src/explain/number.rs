//! The form of a number: one to four decimal digits, with no leading zero unless it is `0`.

/// The number that a field says, or what its form lacks.
pub fn read(field: &[u8]) -> Result<u32, &'static str> {
    if field.is_empty() || !field.iter().all(u8::is_ascii_digit) {
        return Err(not_digits(field));
    }
    match field {
        [b'0', _, ..] => Err("a number has no leading zero"),
        [_, _, _, _, _, ..] => Err("a number has at most four digits"),
        _ => {
            let digits = field.iter().map(|digit| u32::from(digit - b'0'));
            Ok(digits.fold(0, |value, digit| 10 * value + digit))
        }
    }
}

/// What to say of a field that is not all digits: the likely mistake, or the form.
fn not_digits(field: &[u8]) -> &'static str {
    let has = |byte: u8| field.contains(&byte);
    match field {
        [b'"', .., b'"'] => "fields are not quoted",
        _ if has(b' ') || has(b'\t') => "fields have no spaces",
        [b'-' | b'+', ..] => "a number has no sign",
        _ => "a number is one to four digits",
    }
}
