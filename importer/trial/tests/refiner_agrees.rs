//! One refiner for many jobs: each answer is that of `refine` alone, and the plain scorer's.

use importer::{refine, Numbers, Refiner};
use trial::generate::damage::Damage;
use trial::generate::{placements, small, Random};
use trial::plain;
use trial::plain::job::Job;
use trial::plain::placement::read_placement;
use trial::plain::scorer::verdict;

/// How many jobs had each outcome.
#[derive(Debug, Default)]
struct Seen {
    placed: usize,
    /// Refused with 8, after a search.
    none: usize,
    /// Refused with another number, before one.
    refused: usize,
}

impl Seen {
    /// Places a text with the one refiner and with fresh buffers.
    fn compare(&mut self, refiner: &mut Refiner, job: &[u8]) {
        let answer = refiner.place(job);
        match answer {
            Ok(_) => self.placed += 1,
            Err(refused) if refused.number == 8 => self.none += 1,
            Err(refused) => {
                assert_ne!(refused.number, 6, "the store suffices for any R");
                self.refused += 1;
            }
        }
        let alone = refine(job);
        assert_eq!(answer.map(|answer| answer.to_refined()), alone);
    }
}

/// A small job, or one of which a placement is known.
fn job(random: &mut Random) -> Job {
    match random.below(3) {
        0 => placements::job_with_legal_placement(random).0,
        _ => small::job(random),
    }
}

/// The plain scorer's numbers of a job as the host has them.
fn of_plain(job: &Job, numbers: &plain::cost::Numbers) -> Numbers {
    Numbers {
        steps: numbers.steps,
        shifted: numbers.shifted,
        mirrored: numbers.mirrored,
        changed: numbers.changed,
        cost: numbers.cost,
        drift: numbers.drift,
        filled: job.weights.filled.map(|_| numbers.filled_steps),
    }
}

#[test]
fn job_after_job() {
    let mut random = Random::new(63);
    let mut refiner = Refiner::default();
    let mut seen = Seen::default();
    for _ in 0..1_000 {
        let job = job(&mut random);
        let mut text = job.text();
        if random.chance(1, 4) {
            let line = random.below(job.cells.len() + 1);
            random
                .pick(&Damage::ALL)
                .inflict(&mut random, &mut text, line);
        }
        seen.compare(&mut refiner, &text);
    }
    let counts = [seen.placed, seen.none, seen.refused];
    assert!(counts.iter().all(|&count| count > 100), "{seen:?}");
}

#[test]
fn poses_and_numbers_are_the_plain_scorers() {
    let mut random = Random::new(64);
    let mut refiner = Refiner::new();
    // Answers that tell of filled steps, and those that have some.
    let (mut told, mut filled) = (0, 0);
    for _ in 0..1_000 {
        let job = job(&mut random);
        let Ok(answer) = refiner.place(&job.text()) else {
            continue;
        };
        let plain = read_placement(answer.text(), job.cells.len());
        let plain = plain.expect("the text has a line for each cell");
        let poses = answer.poses().expect("each line is a pose");
        let fields = poses.iter().map(|pose| {
            let mark = u32::from(pose.mirrored);
            [pose.site, pose.layout, mark]
        });
        let expected = plain.iter().map(|pose| [pose.site, pose.layout, pose.mark]);
        assert!(fields.eq(expected.map(|fields| fields.map(u32::from))));
        let scored = verdict(&job, &plain).expect("the placement is legal");
        let numbers = answer.numbers();
        assert_eq!(numbers, of_plain(&job, &scored));
        told += usize::from(numbers.filled.is_some());
        filled += usize::from(numbers.filled.is_some_and(|filled| filled > 0));
    }
    assert!(told > 100 && filled > 10, "{told} {filled}");
}
