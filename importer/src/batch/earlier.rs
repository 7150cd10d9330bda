//! Answers of an earlier run, taken over from the outputs that it wrote.

use super::files;
use super::task::Task;
use crate::{read, score, Numbers, Refused};
use std::fs;
use std::path::Path;
use std::time::SystemTime;

/// The refusal of a job that has no legal placement.
const NONE: Refused = Refused { number: 8, line: 0 };

/// The answer in a task's output; none if it has to be found anew. It is taken over if it is newer
/// than the job and the placement beside it, and if Score or Read says the same of the job.
pub(super) fn answer(task: &Task, job: &[u8]) -> Option<Result<Numbers, Refused>> {
    let written = changed(&task.output)?;
    let is_newer = |path: &Path| changed(path).map_or(true, |changed| written > changed);
    if !is_newer(&task.job) || !is_newer(&task.placement) {
        return None;
    }
    told(job, &files::read(&task.output).ok()?)
}

fn changed(path: &Path) -> Option<SystemTime> {
    fs::metadata(path).ok()?.modified().ok()
}

/// What an output says of a job, if it can be said of it.
fn told(job: &[u8], output: &[u8]) -> Option<Result<Numbers, Refused>> {
    if output.starts_with(b"refused,") {
        let refused = read(job).err().unwrap_or(NONE);
        let line = format!("{}\n", refused.fields());
        return (output == line.as_bytes()).then_some(Err(refused));
    }
    let end = output.iter().position(|&byte| byte == b'\n')?;
    let (line, placement) = (output.get(..end)?, output.get(end + 1..)?);
    let numbers = score(job, placement).ok()?.legal().ok()?;
    (line == numbers.fields().as_bytes()).then_some(Ok(numbers))
}

#[cfg(test)]
mod tests {
    use super::*;

    const JOB: &[u8] = b"J,1,20,1,1,100,7,100,50\nC,0,17,1,1,4,3,3,2,2\n";
    const ANSWER: &str = "7,0,1,0,0,-100\n16,0,0\n";

    /// Two cells two sites apart, with one step.
    const FILLED: &[u8] = b"K,1,10,0,0,7,7,7,7,30\nC,0,0,0,1,4,3,3,2,2\nC,0,6,0,1,4,2,3,2,2\n";

    fn is_told(job: &[u8], output: &str) -> bool {
        told(job, output.as_bytes()).is_some()
    }

    #[test]
    fn a_whole_answer_is_taken_over() {
        let Some(Ok(numbers)) = told(JOB, ANSWER.as_bytes()) else {
            panic!("the answer is one of the job");
        };
        assert_eq!((numbers.cost, numbers.drift), (7, -100));
        assert_eq!(
            told(b"", b"refused,1,1\n").map(|told| told.is_err()),
            Some(true)
        );
        assert!(is_told(JOB, "refused,8,0\n"));
        assert!(is_told(FILLED, "30,1,0,0,0,0,1\n0,0,0\n6,0,0\n"));
    }

    #[test]
    fn what_is_cut_or_of_another_job_is_not() {
        for end in 0..ANSWER.len() {
            assert!(!is_told(JOB, &ANSWER[..end]), "{end}");
        }
        assert!(!is_told(JOB, "8,0,1,0,0,-100\n16,0,0\n"));
        assert!(!is_told(JOB, "7,0,1,0,0,-100\n17,0,0\n"));
        assert!(!is_told(JOB, "refused,1,1\n"));
        assert!(!is_told(JOB, "refused,8,0"));
        assert!(!is_told(FILLED, "30,1,0,0,0,0\n0,0,0\n6,0,0\n"));
        assert!(!is_told(FILLED, "30,1,0,0,0,0,0\n0,0,0\n6,0,0\n"));
        assert!(!is_told(b"", "refused,1,2\n"));
        assert!(!is_told(b"", ANSWER));
    }

    /// Eight cells, of which the last is shifted by one site to the left: -12.5 hundredths, halves to
    /// even. An answer of before A9 says -13, and the job is placed anew.
    #[test]
    fn an_answer_with_the_drift_of_before_is_not() {
        let cell = |given: u32| format!("C,0,{given},0,1,2,1,1,1,1\n");
        let cells = [0, 2, 4, 6, 8, 10, 12, 15].map(cell).concat();
        let job = format!("J,1,16,1,0,100,7,100,50\n{cells}");
        let placement = "0,0,0\n2,0,0\n4,0,0\n6,0,0\n8,0,0\n10,0,0\n12,0,0\n14,0,0\n";
        let is_told =
            |drift: i32| is_told(job.as_bytes(), &format!("7,0,1,0,0,{drift}\n{placement}"));
        assert!(is_told(-12));
        assert!(!is_told(-13));
    }
}
