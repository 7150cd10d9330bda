//! Reasons against the plain sentence, byte for byte, on generated pairs of texts; Score's verdict
//! against what the sentence says.

use importer::{Broken, Sentence, Verdict};
use trial::generate::damage::Damage;
use trial::generate::{broken, jobs, placements, Random};
use trial::lent::Arrays;
use trial::plain::job::MOST_CELLS;
use trial::plain::placement::text_of;
use trial::plain::reasons::{reasons, reasons_results, OUTPUT};

/// Holds Reasons against the plain one, pair by pair, and counts what was seen.
#[derive(Default)]
struct Comparison {
    arrays: Arrays,
    pairs: usize,
    /// How many pairs had each refusal number, 0 for those that have a sentence.
    numbers: [usize; 6],
    /// How many placements were legal.
    legal: usize,
    /// How many broke each rule first, from rule 1: by one cell, by two, and by more.
    rules: [[usize; 3]; 8],
    /// The most cells that a sentence named.
    most: usize,
}

impl Comparison {
    fn compare(&mut self, job: &[u8], placement: &[u8]) {
        let mut output = self.pattern();
        let said = reasons(job, placement, output.len());
        let mut expected = output.clone();
        if let Ok(sentence) = &said {
            expected[..sentence.len()].copy_from_slice(sentence.as_bytes());
        }
        let results = reasons_results(&said);
        let left = self
            .arrays
            .lend(|results| importer::calls::reasons(job, placement, &mut output, results));
        let texts = || format!("{}\nand\n{}", job.escape_ascii(), placement.escape_ascii());
        if let Err(difference) = left.check(results[0] as u32, &results) {
            panic!("Reasons {difference} of\n{}", texts());
        }
        assert!(output == expected, "{said:?} of\n{}", texts());
        self.pairs += 1;
        self.numbers[results[0] as usize] += 1;
        match importer::score(job, placement) {
            Ok(verdict) => self.read_back(&output[..results[2] as usize], &verdict),
            Err(refused) => {
                let said = [refused.number, refused.line].map(|number| number as i32);
                assert_eq!(results[..2], said, "{}", texts());
            }
        }
    }

    /// An output that is as long as it must be, or longer, in another pattern each time.
    fn pattern(&self) -> Vec<u8> {
        let spare = self.pairs % 7;
        let byte = |at: usize| (at * 31 + self.pairs * 17) as u8;
        (0..OUTPUT + spare).map(byte).collect()
    }

    /// Rule and cells are had back from the sentence; Score's cell is the first of them.
    fn read_back(&mut self, text: &[u8], verdict: &Verdict) {
        let text = String::from_utf8_lossy(text);
        let (rule, cell, cells) = match text.parse() {
            Ok(Sentence::Broken { rule, cells }) => (rule, cells[0], cells.len()),
            Ok(Sentence::Legal) => {
                assert!(matches!(verdict, Verdict::Legal(_)), "{verdict}");
                self.legal += 1;
                return;
            }
            Err(error) => panic!("{error}: {text}"),
        };
        assert_eq!(*verdict, Verdict::Broken(Broken { rule, cell }), "{text}");
        self.rules[rule as usize - 1][cells.min(3) - 1] += 1;
        self.most = self.most.max(cells);
    }
}

#[test]
fn on_placements_that_break_each_rule_by_one_cell_by_two_and_by_many() {
    let mut random = Random::new(101);
    let mut comparison = Comparison::default();
    for count in 0..80_000 {
        let (job, mut placement) = broken::job_with_broken_rule(&mut random, 1 + count % 8);
        if random.chance(1, 10) {
            placements::wander(&mut random, &job, &mut placement);
        }
        comparison.compare(&job.text(), &text_of(&placement));
    }
    for (rule, [one, two, many]) in (1..).zip(comparison.rules) {
        assert!(two > 300 && many > 300, "rule {rule}: {two} {many}");
        // Overlaps, gaps and exchanged tall cells take two.
        assert_eq!(one > 300, ![4, 5, 7].contains(&rule), "rule {rule}: {one}");
    }
    assert_eq!(comparison.most, MOST_CELLS);
}

#[test]
fn on_legal_and_nearly_legal_placements() {
    let mut random = Random::new(102);
    let mut comparison = Comparison::default();
    for _ in 0..30_000 {
        let (job, mut placement) = placements::job_with_legal_placement(&mut random);
        for _ in 0..random.below(4) {
            placements::wander(&mut random, &job, &mut placement);
        }
        comparison.compare(&job.text(), &text_of(&placement));
    }
    assert!(comparison.legal > 5_000, "{}", comparison.legal);
}

/// Fixed cells as they must stand, or in a layout, with a mark or at a site that a free one may
/// have.
#[test]
fn on_fixed_cells() {
    let mut random = Random::new(103);
    let mut comparison = Comparison::default();
    for count in 0..20_000 {
        let (job, mut placement) = placements::job_with_fixed_cells(&mut random);
        for _ in 0..random.below(6) {
            let rule = [1, 3][count % 2];
            placements::break_rule(&mut random, rule, &job, &mut placement);
        }
        comparison.compare(&job.text(), &text_of(&placement));
    }
    let [choice, _, shift, ..] = comparison.rules;
    let mut counts = choice.iter().chain(&shift);
    assert!(counts.all(|&seen| seen > 100), "{choice:?} {shift:?}");
}

#[test]
fn on_wild_placements() {
    let mut random = Random::new(104);
    let mut comparison = Comparison::default();
    for _ in 0..20_000 {
        let job = jobs::job_of_any_size(&mut random);
        let placement = placements::wild(&mut random, &job);
        comparison.compare(&job.text(), &text_of(&placement));
    }
}

/// Number and line are Score's, and nothing is written.
#[test]
fn on_damaged_texts() {
    let mut random = Random::new(105);
    let mut comparison = Comparison::default();
    for count in 0..60_000 {
        let (job, placement) = broken::job_with_broken_rule(&mut random, 1 + count % 8);
        let (mut job_text, mut text) = (job.text(), text_of(&placement));
        let line = random.below(placement.len() + 1);
        let damage = random.pick(&Damage::ALL);
        match count % 3 {
            0 => damage.inflict(&mut random, &mut text, line),
            _ => damage.inflict(&mut random, &mut job_text, line),
        }
        comparison.compare(&job_text, &text);
    }
    let [told, form, range, _, order, placement] = comparison.numbers;
    let counts = [told, form, range, order, placement];
    assert!(
        counts.iter().all(|&seen| seen > 300),
        "{:?}",
        comparison.numbers
    );
}

#[test]
fn on_jobs_with_too_many_cells() {
    let mut random = Random::new(106);
    let mut comparison = Comparison::default();
    for _ in 0..1_000 {
        let job = jobs::job_about_the_limits(&mut random);
        let placement = placements::wild(&mut random, &job);
        comparison.compare(&job.text(), &text_of(&placement));
    }
    assert!(comparison.numbers[3] > 300, "{:?}", comparison.numbers);
}

#[test]
fn on_texts_of_other_lengths() {
    let mut random = Random::new(107);
    let mut comparison = Comparison::default();
    for _ in 0..2_000 {
        let job = jobs::job_of_any_size(&mut random);
        let other = jobs::job_of_any_size(&mut random);
        let placement = placements::wild(&mut random, &other);
        comparison.compare(&job.text(), &text_of(&placement));
        comparison.compare(&job.text(), &other.text());
        comparison.compare(&text_of(&placement), &text_of(&placement));
    }
    comparison.compare(b"", b"");
    comparison.compare(b"", b"0,0,0\n");
}
