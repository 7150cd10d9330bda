//! Lines of numbers: one to four digits each, parted by commas, ended by a line feed.

/// The most numbers that any line may hold: a tall cell's with two layouts.
pub const MOST: usize = 22;

/// A line of numbers that is in its form.
pub struct Numbers {
    values: [u16; MOST],
    /// How many the line has; those past [`MOST`] are counted and not kept.
    pub count: usize,
    /// Where the next line begins.
    pub next: usize,
}

impl Numbers {
    /// The line's numbers, if it has no more than [`MOST`].
    pub fn values(&self) -> &[u16] {
        &self.values[..self.count.min(MOST)]
    }
}

/// The line of numbers that begins at `at`; none if it is not in its form, or if the text ends
/// without a line feed.
pub fn read_numbers(text: &[u8], mut at: usize) -> Option<Numbers> {
    let mut values = [0; MOST];
    let mut count = 0;
    loop {
        let (value, end) = read_number(text, at)?;
        if let Some(kept) = values.get_mut(count) {
            *kept = value;
        }
        count += 1;
        at = end + 1;
        match text.get(end)? {
            b',' => {}
            b'\n' => break,
            _ => return None,
        }
    }
    Some(Numbers {
        values,
        count,
        next: at,
    })
}

/// The number that begins at `at`, and where it ends.
fn read_number(text: &[u8], at: usize) -> Option<(u16, usize)> {
    let mut value = digit(text, at)?;
    let mut end = at + 1;
    while let Some(next) = digit(text, end) {
        let leading_zero = value == 0;
        if leading_zero || end - at == 4 {
            return None;
        }
        value = 10 * value + next;
        end += 1;
    }
    Some((value, end))
}

fn digit(text: &[u8], at: usize) -> Option<u16> {
    let byte = *text.get(at)?;
    byte.is_ascii_digit().then(|| u16::from(byte - b'0'))
}
