//! What came of tasks as comma-separated values.

use super::done::Done;
use super::failure::Failure;
use super::fields::{self, COLUMNS};
use super::task::Task;

/// A line with the columns' names, then a line for each task. A file's name is quoted where it has a
/// comma, a quote or a line's end in it, as RFC 4180 has it; lines end with a line feed.
pub fn csv(tasks: &[Task], results: &[Result<Done, Failure>]) -> Vec<u8> {
    let mut csv = COLUMNS.join(",").into_bytes();
    csv.push(b'\n');
    for (task, result) in tasks.iter().zip(results) {
        quote(&mut csv, task.job.as_os_str().as_encoded_bytes());
        for field in fields::of(result) {
            csv.push(b',');
            csv.extend_from_slice(field.as_bytes());
        }
        csv.push(b'\n');
    }
    csv
}

/// Writes a field, in quotes if it needs them; a quote in it is doubled.
fn quote(csv: &mut Vec<u8>, field: &[u8]) {
    let parts = |byte: &u8| matches!(byte, b',' | b'"' | b'\n' | b'\r');
    if !field.iter().any(parts) {
        csv.extend_from_slice(field);
        return;
    }
    csv.push(b'"');
    for &byte in field {
        if byte == b'"' {
            csv.push(b'"');
        }
        csv.push(byte);
    }
    csv.push(b'"');
}

#[cfg(test)]
mod tests {
    use super::*;

    #[test]
    fn a_field_is_quoted_where_it_needs_it() {
        let quoted = |field: &str| {
            let mut csv = Vec::new();
            quote(&mut csv, field.as_bytes());
            String::from_utf8(csv).expect("a text stays a text")
        };
        assert_eq!(quoted("a b/c'd.job"), "a b/c'd.job");
        assert_eq!(quoted("a,b.job"), "\"a,b.job\"");
        assert_eq!(quoted("a\"b\".job"), "\"a\"\"b\"\".job\"");
        assert_eq!(quoted("a\nb\r"), "\"a\nb\r\"");
    }
}
