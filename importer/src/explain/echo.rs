//! Parts of an input, made fit to be shown: printable, and not too long.

/// How many bytes are shown of a line, and of a field's value.
const LINE: usize = 200;
const VALUE: usize = 40;

/// A line of an input, for a terminal: a control byte, a byte over 127 and a backslash are escaped,
/// and a line of more than 200 bytes is cut with a mark. The line feed at its end is left out.
pub fn printable(line: &[u8]) -> String {
    let line = line.strip_suffix(b"\n").unwrap_or(line);
    let (shown, mark) = cut(line, LINE);
    let mut echo = String::new();
    for &byte in shown {
        match byte {
            b'\'' | b'"' => echo.push(char::from(byte)),
            _ => echo.extend(byte.escape_ascii().map(char::from)),
        }
    }
    echo + &mark
}

/// A field's value in quotes.
pub(super) fn quoted(value: &[u8]) -> String {
    let (shown, mark) = cut(value, VALUE);
    format!("\"{}\"{mark}", shown.escape_ascii())
}

/// The first bytes, and a mark that says how many more there are.
fn cut(bytes: &[u8], most: usize) -> (&[u8], String) {
    match bytes.get(..most) {
        Some(shown) if bytes.len() > most => {
            let more = bytes.len() - most;
            (shown, format!(" ... {more} more bytes"))
        }
        _ => (bytes, String::new()),
    }
}
