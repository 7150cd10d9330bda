//! Links in a page.

use std::ffi::OsStr;

/// A link to a file in the page's folder. The lead keeps a name with a colon from being a scheme.
pub fn link(file: &OsStr) -> String {
    let mut link = String::from("./");
    for &byte in file.as_encoded_bytes() {
        if byte.is_ascii_alphanumeric() || b"-._~".contains(&byte) {
            link.push(char::from(byte));
        } else {
            link.push_str(&format!("%{byte:02X}"));
        }
    }
    link
}

#[cfg(test)]
mod tests {
    use super::*;

    #[test]
    fn what_a_link_reserves_is_escaped() {
        assert_eq!(link(OsStr::new("a-1.svg")), "./a-1.svg");
        assert_eq!(
            link(OsStr::new("a b:%é\".svg")),
            "./a%20b%3A%25%C3%A9%22.svg"
        );
    }
}
