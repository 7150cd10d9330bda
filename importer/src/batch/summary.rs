//! What came of all tasks, in sum.

use super::done::Done;
use super::failure::Failure;
use crate::Verdict;
use std::collections::BTreeMap;
use std::time::Duration;

/// How many tasks came to which end.
#[derive(Clone, Debug, Default, PartialEq, Eq)]
pub struct Summary {
    /// All tasks.
    pub jobs: usize,
    /// The jobs that have a placement.
    pub answered: usize,
    /// The jobs that were refused, by the refusal's number.
    pub refused: BTreeMap<u32, usize>,
    /// The jobs that could not be read, that there was no memory to place, or whose answers could
    /// not be written.
    pub failed: usize,
    /// How many answers are those of an earlier run.
    pub taken_over: usize,
    /// The placements beside the jobs: how many are legal, break a rule, are refused.
    pub placements: [usize; 3],
    /// What the answers save of the cost of the legal ones.
    pub saved: i64,
}

impl Summary {
    /// Counts what came of tasks.
    pub fn of(results: &[Result<Done, Failure>]) -> Summary {
        let mut summary = Summary::default();
        results.iter().for_each(|result| summary.add(result));
        summary
    }

    fn add(&mut self, result: &Result<Done, Failure>) {
        self.jobs += 1;
        let Ok(done) = result else {
            self.failed += 1;
            return;
        };
        match done.placed {
            Ok(_) => self.answered += 1,
            Err(refused) => *self.refused.entry(refused.number).or_default() += 1,
        }
        self.taken_over += usize::from(done.taken_over);
        let [legal, broken, refused] = &mut self.placements;
        match done.theirs {
            None => {}
            Some(Ok(Verdict::Legal(_))) => *legal += 1,
            Some(Ok(Verdict::Broken(_))) => *broken += 1,
            Some(Err(_)) => *refused += 1,
        }
        self.saved += done.saved().unwrap_or_default();
    }

    /// The jobs that were read and placed in this run, and not in an earlier one.
    pub fn anew(&self) -> usize {
        self.jobs - self.failed - self.taken_over
    }

    /// Lines of fields, of a run that took so long.
    pub fn lines(&self, time: Duration) -> String {
        let mut lines = format!("jobs,{}\nanswered,{}\n", self.jobs, self.answered);
        for (number, count) in &self.refused {
            lines += &format!("refused,{number},{count}\n");
        }
        let [legal, broken, refused] = self.placements;
        let seconds = time.as_secs_f64();
        let rate = match self.anew() {
            0 => 0.0,
            anew => anew as f64 / seconds.max(f64::MIN_POSITIVE),
        };
        lines += &format!("failed,{}\ntaken over,{}\n", self.failed, self.taken_over);
        lines += &format!("placements,{legal},{broken},{refused}\n");
        lines += &format!("saved,{}\n", self.saved);
        lines += &format!("seconds,{seconds:.3}\njobs a second,{rate:.1}\n");
        lines
    }
}
