//! The refiner's processor time beside that of plain Rust, in one run.
//!
//! Each line is the best of five of both, taken in turn. `bench growth` shows instead how the
//! time of Place grows with the job, `bench filled` what a weight of filled steps takes beside the
//! same job without it, `bench batch` how long many jobs take by one thread and two, and `bench farm`
//! how many jobs of the farm's load, and of dense ones, are done in a second. `bench dense DIR` only
//! writes those dense jobs to a folder.

mod batch;
mod clock;
mod dense;
mod farm;
mod filled;
mod growth;
mod placing;
mod reading;
mod scoring;

use std::io;

fn main() -> io::Result<()> {
    let words: Vec<String> = std::env::args().skip(1).collect();
    let words: Vec<&str> = words.iter().map(String::as_str).collect();
    match words[..] {
        ["dense", folder] => dense::write(&dense::jobs(), folder.as_ref())?,
        ["growth"] => growth::show(),
        ["filled"] => filled::show(),
        ["batch"] => batch::show()?,
        ["farm"] => farm::show(),
        _ => compare(),
    }
    Ok(())
}

fn compare() {
    println!(
        "{:<44}{:>12}{:>12}{:>8}",
        "", "refiner", "plain Rust", "ratio"
    );
    reading::compare();
    scoring::compare();
    placing::compare();
}
