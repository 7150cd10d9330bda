//! How far many jobs are, on standard error: a bar on a terminal, and elsewhere a line now and then.

use importer::batch::{Done, Failure, Task, Watch};
use std::io::{self, IsTerminal, Stderr, Write};
use std::time::{Duration, Instant};

/// How long a bar stands until it is drawn anew, and how long after a line there is the next.
const BAR_STANDS: Duration = Duration::from_millis(100);
const LINE_STANDS: Duration = Duration::from_secs(10);

/// How many characters the bar is wide.
const WIDTH: usize = 30;

pub struct Progress<Out> {
    jobs: usize,
    done: usize,
    /// Those that were not taken over: the time left is told by these.
    anew: usize,
    start: Instant,
    shown: Instant,
    is_terminal: bool,
    /// How many characters of a bar stand on the terminal's line.
    drawn: usize,
    out: Out,
}

impl Progress<Stderr> {
    /// On standard error, from now on.
    pub fn new(jobs: usize) -> Progress<Stderr> {
        let out = io::stderr();
        Progress::on(out.is_terminal(), out, jobs, Instant::now())
    }
}

impl<Out: Write> Progress<Out> {
    fn on(is_terminal: bool, out: Out, jobs: usize, start: Instant) -> Progress<Out> {
        Progress {
            jobs,
            done: 0,
            anew: 0,
            start,
            shown: start,
            is_terminal,
            drawn: 0,
            out,
        }
    }

    /// Says something in a line of its own.
    pub fn tell(&mut self, note: &str) {
        self.clear();
        self.write(&format!("refine: {note}\n"));
    }

    /// Takes the bar away.
    pub fn clear(&mut self) {
        if self.drawn > 0 {
            self.write(&format!("\r{:1$}\r", "", self.drawn));
            self.drawn = 0;
        }
    }

    /// Shows how far the jobs are, if it is time to.
    fn look_at(&mut self, now: Instant) {
        let stands = match self.is_terminal {
            true => BAR_STANDS,
            false => LINE_STANDS,
        };
        if self.done == self.jobs || now.duration_since(self.shown) < stands {
            return;
        }
        self.shown = now;
        let passed = now.duration_since(self.start);
        let words = words(self.done, self.jobs, self.anew, passed);
        match self.is_terminal {
            true => self.draw(&bar(self.done, self.jobs, &words)),
            false => self.tell(&words),
        }
    }

    /// What a longer bar left behind is written over.
    fn draw(&mut self, bar: &str) {
        self.write(&format!("\r{bar:0$}", self.drawn));
        self.drawn = self.drawn.max(bar.chars().count());
    }

    /// Nothing can be told to a reader that has gone away.
    fn write(&mut self, text: &str) {
        let _ = self.out.write_all(text.as_bytes());
    }
}

impl<Out: Write> Watch for Progress<Out> {
    fn done(&mut self, _: &Task, result: &Result<Done, Failure>) {
        self.done += 1;
        match result {
            Ok(done) => self.anew += usize::from(!done.taken_over),
            Err(failure) => self.tell(&failure.to_string()),
        }
    }

    fn look(&mut self) {
        self.look_at(Instant::now());
    }

    fn fewer(&mut self, threads: usize, error: &io::Error) {
        self.tell(&format!(
            "fewer threads could be started, {threads}: {error}"
        ));
    }
}

fn bar(done: usize, jobs: usize, words: &str) -> String {
    let full = WIDTH * done / jobs.max(1);
    format!("[{}{}] {words}", "#".repeat(full), "-".repeat(WIDTH - full))
}

/// How many jobs are done, how fast, and how long it will still take at that rate.
fn words(done: usize, jobs: usize, anew: usize, passed: Duration) -> String {
    let mut words = format!("{done} of {jobs} jobs");
    let rate = anew as f64 / passed.as_secs_f64();
    if rate.is_finite() && rate > 0.0 {
        let left = (jobs - done) as f64 / rate;
        words += &format!(", {rate:.1} a second, {} left", time(left.ceil() as u64));
    }
    words
}

/// Seconds as people say them.
fn time(seconds: u64) -> String {
    let (hours, minutes, rest) = (seconds / 3600, seconds / 60 % 60, seconds % 60);
    match (hours, minutes) {
        (0, 0) => format!("{rest} s"),
        (0, _) => format!("{minutes} min {rest:02} s"),
        _ => format!("{hours} h {minutes:02} min"),
    }
}

#[cfg(test)]
mod tests {
    use super::*;

    /// What is said of 1,000 jobs when it is looked at after so many milliseconds, a hundred jobs
    /// more each time.
    fn said(is_terminal: bool, looks: &[u64]) -> String {
        let start = Instant::now();
        let mut progress = Progress::on(is_terminal, Vec::new(), 1000, start);
        for &look in looks {
            progress.done += 100;
            progress.anew += 100;
            progress.look_at(start + Duration::from_millis(look));
        }
        progress.clear();
        String::from_utf8(progress.out).expect("a text")
    }

    #[test]
    fn elsewhere_there_is_a_line_every_ten_seconds() {
        assert_eq!(said(false, &[0, 5_000, 9_999]), "");
        let first = "refine: 200 of 1000 jobs, 20.0 a second, 40 s left\n";
        assert_eq!(said(false, &[9_999, 10_000, 19_999]), first);
        let second = "refine: 300 of 1000 jobs, 15.0 a second, 47 s left\n";
        let both = format!("{first}{second}");
        assert_eq!(said(false, &[9_999, 10_000, 20_000]), both);
    }

    #[test]
    fn a_terminal_has_a_bar_ten_times_a_second_and_none_at_the_end() {
        assert_eq!(said(true, &[0, 99]), "");
        let line = |full: usize, words: &str| {
            let bar = "#".repeat(full) + &"-".repeat(30 - full);
            format!("\r[{bar}] {words}")
        };
        let first = line(6, "200 of 1000 jobs, 2000.0 a second, 1 s left");
        // One character less: the last one is written over.
        let second = line(12, "400 of 1000 jobs, 400.0 a second, 2 s left ");
        let gone = format!("\r{}\r", " ".repeat(first.len() - 1));
        let all = format!("{first}{second}{gone}");
        assert_eq!(said(true, &[0, 100, 199, 1_000]), all);
        assert_eq!(said(true, &[0; 10]), "");
    }

    #[test]
    fn the_time_left_is_told_by_the_jobs_done_anew() {
        let passed = Duration::from_secs(10);
        let said = "600 of 1000 jobs, 20.0 a second, 20 s left";
        assert_eq!(words(600, 1000, 200, passed), said);
        assert_eq!(words(600, 1000, 0, passed), "600 of 1000 jobs");
        assert_eq!(words(0, 1000, 0, Duration::ZERO), "0 of 1000 jobs");
        let said = "1 of 9 jobs, 0.1 a second, 1 min 20 s left";
        assert_eq!(words(1, 9, 1, passed), said);
    }

    #[test]
    fn times_are_told_in_hours_minutes_and_seconds() {
        assert_eq!([0, 59].map(time), ["0 s", "59 s"]);
        assert_eq!([60, 3599].map(time), ["1 min 00 s", "59 min 59 s"]);
        assert_eq!([3600, 90_061].map(time), ["1 h 00 min", "25 h 01 min"]);
    }

    #[test]
    fn a_bar_is_as_full_as_jobs_are_done() {
        let half = format!("[{}{}] x", "#".repeat(15), "-".repeat(15));
        assert_eq!(bar(500, 1000, "x"), half);
        assert_eq!(bar(0, 3, "x"), format!("[{}] x", "-".repeat(30)));
        assert_eq!(bar(3, 3, "x"), format!("[{}] x", "#".repeat(30)));
        assert_eq!(bar(0, 0, "x").len(), 34);
    }
}
