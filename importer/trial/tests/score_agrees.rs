//! Score and Fault line against the plain ones, on generated pairs of texts.

use trial::generate::damage::Damage;
use trial::generate::{broken, jobs, placements, Random};
use trial::lent::Arrays;
use trial::plain::fault::{fault_line, Part};
use trial::plain::job::Job;
use trial::plain::placement::{text_of, Placement, Pose};
use trial::plain::results::score_results;
use trial::plain::scorer::{score, verdict};

/// What stands in an output before a call.
const UNTOUCHED: u8 = 0xaa;

/// Holds Score and Fault line against the plain ones, pair by pair, and counts what was seen.
#[derive(Default)]
struct Comparison {
    arrays: Arrays,
    /// How many pairs had each refusal number, 0 for those that were scored.
    numbers: [usize; 6],
    /// How many scored pairs broke each rule first, 0 for the legal ones.
    rules: [usize; 9],
    /// How many pairs whose job begins with `K,` had each refusal number.
    led_by_k: [usize; 6],
    /// How many of them have filled steps, and steps at gap 0 beside them.
    filled: usize,
    both: usize,
}

impl Comparison {
    fn compare(&mut self, job: &[u8], placement: &[u8]) {
        let expected = score(job, placement);
        let results = score_results(job, &expected);
        let part = fault_line(job, placement, &expected);
        self.numbers[results[0] as usize] += 1;
        if results[0] == 0 {
            self.rules[results[2] as usize] += 1;
        }
        if job.starts_with(b"K,") {
            let (steps, filled) = (results[4], results[10]);
            self.led_by_k[results[0] as usize] += 1;
            self.filled += usize::from(filled > 0);
            self.both += usize::from(filled > 0 && filled < steps);
        }
        let score = |lent: &mut [i32]| importer::calls::score(job, placement, lent);
        let fault = |lent: &mut [u64]| importer::calls::fault(job, placement, lent);
        let scored = self.arrays.lend(score).check(results[0] as u32, &results);
        let told = self.arrays.lend_part(fault);
        let outcome = scored
            .and_then(|()| told.check(results[0] as u32, &part.numbers()))
            .and_then(|()| self.copies(job, placement, results[0] as u32, &part));
        if let Err(difference) = outcome {
            let texts = [job, placement].map(<[u8]>::escape_ascii);
            panic!("{difference} of\n{}\nand\n{}", texts[0], texts[1]);
        }
    }

    /// Holds the copied line against the part, in outputs with room for nothing, for half of it, for
    /// all of it and for more. Nothing past the line or past the room may be touched.
    fn copies(
        &mut self,
        job: &[u8],
        placement: &[u8],
        number: u32,
        part: &Part,
    ) -> Result<(), String> {
        let line = part.bytes(job, placement);
        for room in [0, line.len() / 2, line.len(), line.len() + 3] {
            let reached = room.min(line.len());
            let mut output = vec![UNTOUCHED; line.len() + 5];
            let copy = |lent: &mut [u64]| {
                importer::calls::fault_line(job, placement, &mut output[..room], lent)
            };
            let left = self.arrays.lend_part(copy);
            left.check(number, &part.numbers())?;
            let (copied, rest) = output.split_at(reached);
            if copied != &line[..reached] || rest.iter().any(|&byte| byte != UNTOUCHED) {
                return Err(format!("copied {} (room {room})", output.escape_ascii()));
            }
        }
        Ok(())
    }
}

#[test]
fn on_legal_and_nearly_legal_placements() {
    let mut random = Random::new(11);
    let mut comparison = Comparison::default();
    for _ in 0..60_000 {
        let (job, mut placement) = placements::job_with_legal_placement(&mut random);
        for _ in 0..random.below(4) {
            placements::wander(&mut random, &job, &mut placement);
        }
        comparison.compare(&job.text(), &text_of(&placement));
    }
    assert!(comparison.rules[0] > 10_000, "{:?}", comparison.rules);
}

#[test]
fn on_placements_that_break_each_rule_and_several() {
    let mut random = Random::new(12);
    let mut comparison = Comparison::default();
    for count in 0..70_000 {
        let first = 1 + count % 8;
        let (job, mut placement) = loop {
            let drawn = placements::job_with_legal_placement(&mut random);
            if first != 7 || drawn.0.tall_cells() >= 2 {
                break drawn;
            }
        };
        placements::break_rule(&mut random, first, &job, &mut placement);
        if random.chance(1, 3) {
            let rule = 1 + random.below(8) as u32;
            placements::break_rule(&mut random, rule, &job, &mut placement);
        }
        comparison.compare(&job.text(), &text_of(&placement));
    }
    let seen = comparison.rules;
    assert!(seen.iter().all(|&seen| seen > 300), "{seen:?}");
}

/// What stands at the ends of rows that hold a cell.
#[derive(Debug, Default)]
struct Ends {
    /// How many rows have no, one, two, or more empty sites before their first cell.
    before: [usize; 4],
    /// The same behind their last.
    behind: [usize; 4],
    /// Cells with one empty site on either side that are their row's only one.
    alone: usize,
    /// Tall cells that have one empty site at an end of one of their rows, and not of the other.
    tall_in_one_row: usize,
    /// Rows without a cell.
    empty: usize,
}

impl Ends {
    fn count(&mut self, job: &Job, placement: &[Pose]) {
        let mut at_one_site = Vec::new();
        for row in 0..job.rows.into() {
            let cells = job.cells.iter().zip(placement).enumerate();
            let in_row = cells.filter(|(_, (cell, _))| cell.rows().contains(&row));
            let stand = |(at, (cell, pose)): (usize, (_, &Pose))| (pose.site, pose.end(cell), at);
            let stands: Vec<(u16, u16, usize)> = in_row.map(stand).collect();
            let (Some(first), Some(last)) = (stands.iter().min(), stands.iter().max()) else {
                self.empty += 1;
                continue;
            };
            let (before, behind) = (first.0, job.sites - last.1);
            self.before[usize::from(before.min(3))] += 1;
            self.behind[usize::from(behind.min(3))] += 1;
            self.alone += usize::from(stands.len() == 1 && before == 1 && behind == 1);
            at_one_site.extend((before == 1).then_some((row, first.2)));
            at_one_site.extend((behind == 1).then_some((row, last.2)));
        }
        let in_one_row = |at: usize| {
            let [row_0, row_1] = [0, 1].map(|row| at_one_site.contains(&(row, at)));
            job.cells[at].is_tall() && row_0 != row_1
        };
        self.tall_in_one_row += (0..placement.len()).filter(|&at| in_one_row(at)).count();
    }
}

#[test]
fn on_row_ends() {
    let mut random = Random::new(16);
    let mut comparison = Comparison::default();
    let mut ends = Ends::default();
    for _ in 0..100_000 {
        let (job, placement) = placements::job_with_row_ends(&mut random);
        comparison.compare(&job.text(), &text_of(&placement));
        ends.count(&job, &placement);
    }
    let [legal, .., broken] = comparison.rules;
    assert!(legal > 20_000 && broken > 50_000, "{:?}", comparison.rules);
    let counts = ends.before.iter().chain(&ends.behind);
    assert!(counts.clone().all(|&count| count > 5_000), "{ends:?}");
    let rare = [ends.alone, ends.tall_in_one_row, ends.empty];
    assert!(rare.iter().all(|&count| count > 1_000), "{ends:?}");
}

/// Fixed cells as they must stand, or in a layout, with a mark or at a site that a free one may have.
#[test]
fn on_fixed_cells() {
    let mut random = Random::new(17);
    let mut comparison = Comparison::default();
    // How many broke each rule that the same placement with free cells does not break.
    let mut by_fixed = [0; 9];
    for count in 0..100_000 {
        let (mut job, mut placement) = placements::job_with_fixed_cells(&mut random);
        match count % 8 {
            0 => {}
            1 => placements::break_rule(&mut random, 1, &job, &mut placement),
            2 => placements::break_rule(&mut random, 3, &job, &mut placement),
            3 => placements::break_rule(&mut random, 2, &job, &mut placement),
            _ => placements::wander(&mut random, &job, &mut placement),
        }
        comparison.compare(&job.text(), &text_of(&placement));
        let rule = |job: &Job| verdict(job, &placement).map_or_else(|broken| broken.rule, |_| 0);
        let broken = rule(&job);
        job.cells.iter_mut().for_each(|cell| cell.fixed = false);
        if rule(&job) != broken {
            by_fixed[broken as usize] += 1;
        }
    }
    let [legal, ..] = comparison.rules;
    assert!(legal > 20_000, "{:?}", comparison.rules);
    assert!(by_fixed[1] > 5_000 && by_fixed[3] > 5_000, "{by_fixed:?}");
}

/// A job whose filled steps have a weight of their own, and a placement of it.
fn with_filled_steps(random: &mut Random, count: u32) -> (Job, Placement) {
    let (mut job, placement) = match count % 4 {
        0 => broken::job_with_broken_rule(random, 1 + count / 4 % 8),
        1 => placements::job_with_row_ends(random),
        2 => placements::job_with_fixed_cells(random),
        _ => placements::job_with_legal_placement(random),
    };
    job.weights = jobs::with_filled(random, job.weights);
    (job, placement)
}

/// A7: "refused or not, Score's numbers have a seventh field at their end".
#[test]
fn on_jobs_led_by_k() {
    let mut random = Random::new(18);
    let mut comparison = Comparison::default();
    for count in 0..110_000 {
        let (job, mut placement) = with_filled_steps(&mut random, count);
        if random.chance(1, 4) {
            placements::wander(&mut random, &job, &mut placement);
        }
        let (mut job_text, mut text) = (job.text(), text_of(&placement));
        let damage = random.pick(&Damage::ALL);
        let line = random.below(placement.len() + 1);
        match random.below(8) {
            0 => damage.inflict(&mut random, &mut job_text, line),
            1 => damage.inflict(&mut random, &mut text, line),
            _ => {}
        }
        comparison.compare(&job_text, &text);
    }
    for _ in 0..500 {
        let mut job = jobs::job_about_the_limits(&mut random);
        job.weights = jobs::with_filled(&mut random, job.weights);
        comparison.compare(&job.text(), b"");
    }
    let Comparison {
        led_by_k,
        rules,
        filled,
        both,
        ..
    } = comparison;
    assert!(led_by_k.iter().sum::<usize>() > 100_000, "{led_by_k:?}");
    assert!(led_by_k.iter().all(|&pairs| pairs > 100), "{led_by_k:?}");
    assert!(rules.iter().all(|&pairs| pairs > 300), "{rules:?}");
    assert!(filled > 10_000 && both > 5_000, "{filled} {both}");
}

#[test]
fn on_wild_placements() {
    let mut random = Random::new(13);
    let mut comparison = Comparison::default();
    for _ in 0..40_000 {
        let job = jobs::job_of_any_size(&mut random);
        let placement = placements::wild(&mut random, &job);
        comparison.compare(&job.text(), &text_of(&placement));
    }
}

#[test]
fn on_damaged_texts() {
    let mut random = Random::new(14);
    let mut comparison = Comparison::default();
    for count in 0..60_000 {
        let (job, placement) = placements::job_with_legal_placement(&mut random);
        let mut job_text = job.text();
        let mut text = text_of(&placement);
        let line = random.below(placement.len() + 1);
        let damage = random.pick(&Damage::ALL);
        if count % 4 == 0 {
            damage.inflict(&mut random, &mut job_text, line);
        }
        if count % 4 != 1 {
            damage.inflict(&mut random, &mut text, line);
        }
        if count % 5 == 0 {
            Damage::TextMore.inflict(&mut random, &mut text, 0);
        }
        comparison.compare(&job_text, &text);
    }
    assert!(comparison.numbers[5] > 20_000, "{:?}", comparison.numbers);
}

#[test]
fn on_texts_of_other_lengths() {
    let mut random = Random::new(15);
    let mut comparison = Comparison::default();
    for _ in 0..5_000 {
        let job = jobs::job_of_any_size(&mut random);
        let other = jobs::job_of_any_size(&mut random);
        let placement = placements::wild(&mut random, &other);
        comparison.compare(&job.text(), &text_of(&placement));
        comparison.compare(&job.text(), &other.text());
        comparison.compare(&text_of(&placement), &text_of(&placement));
    }
    comparison.compare(b"", b"");
    comparison.compare(b"", b"0,0,0\n");
}
