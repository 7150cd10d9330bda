//! The result array of a call: refusal number and line, then the operation's fields.

use crate::Refused;
use std::vec;

/// Number and line, which stand before the fields of every operation.
const HEAD: usize = 2;

/// The fields of an answer, to be taken one by one in the order in which they stand.
pub(crate) struct Fields(vec::IntoIter<i32>);

impl Fields {
    /// Calls an operation that has so many fields, with a result array that holds them all.
    pub fn of(count: usize, call: impl FnOnce(&mut [i32]) -> u32) -> Result<Fields, Refused> {
        let mut results = vec![0; HEAD + count];
        call(&mut results);
        let mut entries = Fields(results.into_iter());
        let (number, line) = (entries.natural(), entries.natural());
        match number {
            0 => Ok(entries),
            _ => Err(Refused { number, line }),
        }
    }

    /// The next field, which is never negative.
    pub fn natural(&mut self) -> u32 {
        self.signed().unsigned_abs()
    }

    /// The next field, a length.
    pub fn length(&mut self) -> usize {
        self.natural() as usize
    }

    /// The next field, which may be negative.
    pub fn signed(&mut self) -> i32 {
        let field = self.0.next();
        field.expect("no more fields are taken than the operation has")
    }
}
