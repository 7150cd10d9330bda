//! What a call leaves in a lent array.

use std::array;
use std::fmt::Debug;

/// The longest array that is tried: more than any operation's number, line and fields.
pub const LONGEST: usize = 14;

/// How many lengths there are, with 0.
const LENGTHS: usize = LONGEST + 1;

/// Lends arrays of each length in turn, filled with a pattern beforehand.
#[derive(Default)]
pub struct Arrays {
    lent: usize,
}

/// An array after a call.
pub struct Left<T> {
    returned: u32,
    pattern: [T; LONGEST],
    array: [T; LONGEST],
    /// How much of the array was lent.
    length: usize,
}

impl Arrays {
    /// Calls an operation with a result array of the next length.
    pub fn lend(&mut self, call: impl FnOnce(&mut [i32]) -> u32) -> Left<i32> {
        let pattern = array::from_fn(|at| i32::MIN + 77 + at as i32);
        Left::of(self.next_length(), pattern, call)
    }

    /// Calls Fault line with an array of the next length for the part.
    pub fn lend_part(&mut self, call: impl FnOnce(&mut [u64]) -> u32) -> Left<u64> {
        let pattern = array::from_fn(|at| u64::MAX - 77 - at as u64);
        Left::of(self.next_length(), pattern, call)
    }

    /// From 0 to the longest, and each time round from one further on: so each of several calls that
    /// are made in turn meets all lengths, however many they are.
    fn next_length(&mut self) -> usize {
        let length = (self.lent + self.lent / LENGTHS) % LENGTHS;
        self.lent += 1;
        length
    }
}

impl<T: Copy + PartialEq + Debug> Left<T> {
    fn of(length: usize, pattern: [T; LONGEST], call: impl FnOnce(&mut [T]) -> u32) -> Left<T> {
        let mut array = pattern;
        let returned = call(&mut array[..length]);
        Left {
            returned,
            pattern,
            array,
            length,
        }
    }

    /// What the call returned.
    pub fn returned(&self) -> u32 {
        self.returned
    }

    /// Holds the call against the number that it should return and what it should write, as far as
    /// the array reached; all after that must be untouched.
    pub fn check(&self, returned: u32, expected: &[T]) -> Result<(), String> {
        let reached = self.length.min(expected.len());
        let mut array = self.pattern;
        array[..reached].copy_from_slice(&expected[..reached]);
        if self.returned == returned && self.array == array {
            return Ok(());
        }
        Err(format!(
            "returned {}, left {:?} (length {}), expected {returned} and {expected:?}",
            self.returned, self.array, self.length
        ))
    }
}

#[cfg(test)]
mod tests {
    use super::*;

    #[test]
    fn each_of_several_calls_in_turn_meets_every_length() {
        for calls in 1..=LENGTHS {
            let mut arrays = Arrays::default();
            let mut met = vec![[false; LENGTHS]; calls];
            for _ in 0..LENGTHS * LENGTHS {
                met.iter_mut()
                    .for_each(|met| met[arrays.next_length()] = true);
            }
            assert_eq!(met, vec![[true; LENGTHS]; calls]);
        }
    }
}
