//! What Score and Place leave in a result array that reaches far enough.

use super::cost::Numbers;
use super::scorer::Verdict;
use super::Refused;

/// How many numbers there are. Document 02, A7: "For a job text that begins with `K,`, refused or not,
/// Score's numbers have a seventh field at their end".
fn count(job: &[u8]) -> usize {
    if job.starts_with(b"K,") {
        7
    } else {
        6
    }
}

/// Number, line, rule, cell and the numbers.
pub fn score_results(job: &[u8], score: &Result<Verdict, Refused>) -> Vec<i32> {
    let none = Numbers::default();
    let (first, numbers) = match score {
        Err(refused) => ([refused.number, refused.line, 0, 0], &none),
        Ok(Err(broken)) => ([0, 0, broken.rule, broken.cells.lowest()], &none),
        Ok(Ok(numbers)) => ([0; 4], numbers),
    };
    let first = first.map(|number| number as i32);
    [&first, &numbers.fields()[..count(job)]].concat()
}

/// Number, line, the numbers of the placement and the length of its text.
pub fn place_results(job: &[u8], placed: &Result<(Numbers, usize), Refused>) -> Vec<i32> {
    let (first, numbers, length) = match placed {
        Err(refused) => ([refused.number, refused.line], Numbers::default(), 0),
        Ok((numbers, length)) => ([0; 2], *numbers, *length),
    };
    let first = first.map(|number| number as i32);
    [&first, &numbers.fields()[..count(job)], &[length as i32]].concat()
}
