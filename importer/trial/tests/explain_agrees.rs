//! Explanations against the refiner, on generated texts: each refusal has a reason that belongs to
//! it, and there is none where the refiner refuses nothing.

use importer::explain::{job_line, job_reason, placement_line, placement_reason, Reason};
use importer::{read, score, Refused};
use trial::generate::damage::Damage;
use trial::generate::{jobs, placements, Random};
use trial::plain::placement::text_of;

/// No message is longer, however long the text.
const LONGEST: usize = 300;

/// Holds explanations against the refiner's refusals, and counts those.
#[derive(Default)]
struct Comparison {
    /// How many texts had each refusal number, 0 for none.
    numbers: [usize; 6],
}

impl Comparison {
    /// Read's refusal of a job text.
    fn job(&mut self, text: &[u8]) {
        let refused = read(text).err();
        let reason = job_reason(text);
        self.check(&reason, refused, || text.escape_ascii().to_string());
        let words = refused.and_then(|refused| job_line(text, &refused));
        assert_eq!(words, reason.map(|reason| reason.words));
    }

    /// Score's refusal of two texts.
    fn pair(&mut self, job: &[u8], placement: &[u8]) {
        let refused = score(job, placement).err();
        let reason = placement_reason(job, placement);
        let texts = || format!("{}\n{}", job.escape_ascii(), placement.escape_ascii());
        self.check(&reason, refused, texts);
        let words = refused.and_then(|refused| placement_line(job, placement, &refused));
        assert_eq!(words, reason.map(|reason| reason.words));
    }

    /// The reason is that of the refusal; its words are one printable line that is not too long.
    fn check(
        &mut self,
        reason: &Option<Reason>,
        refused: Option<Refused>,
        texts: impl Fn() -> String,
    ) {
        let of_reason = reason.as_ref().map(|reason| reason.answer);
        assert_eq!(of_reason, refused, "{reason:?} of\n{}", texts());
        self.numbers[refused.map_or(0, |refused| refused.number as usize)] += 1;
        if let Some(Reason { words, .. }) = reason {
            let printable = words.bytes().all(|byte| matches!(byte, b' '..=b'~'));
            assert!(printable && !words.is_empty(), "{words:?}");
            assert!(words.len() <= LONGEST, "{words:?}");
        }
    }
}

#[test]
fn on_damaged_jobs() {
    let mut random = Random::new(41);
    let mut comparison = Comparison::default();
    let mut led_by_k = 0;
    for count in 0..120_000 {
        let job = jobs::job_of_any_size(&mut random);
        let mut text = job.text();
        for _ in 0..1 + count % 3 {
            let line = random.below(job.cells.len() + 1);
            let damage = random.pick(&Damage::ALL);
            damage.inflict(&mut random, &mut text, line);
        }
        if count % 100 == 0 {
            text.splice(0..0, *b"\xef\xbb\xbf");
        }
        led_by_k += usize::from(text.starts_with(b"K,"));
        comparison.job(&text);
    }
    assert!(led_by_k > 20_000, "{led_by_k}");
    let [_, form, range, _, order, _] = comparison.numbers;
    assert!(form + range + order > 50_000, "{:?}", comparison.numbers);
    assert!(range > 10_000 && order > 1_000, "{:?}", comparison.numbers);
}

#[test]
fn on_each_damage_to_each_line() {
    let mut random = Random::new(42);
    let mut comparison = Comparison::default();
    for cells in [0, 1, 2, 7, 24, 64] {
        let text = jobs::job(&mut random, cells).text();
        Damage::each(&mut random, &text, cells + 1, |text| comparison.job(text));
    }
}

#[test]
fn on_jobs_with_too_many_cells() {
    let mut random = Random::new(43);
    let mut comparison = Comparison::default();
    for _ in 0..2_000 {
        let job = jobs::job_about_the_limits(&mut random);
        comparison.job(&job.text());
    }
    assert!(comparison.numbers[3] > 500, "{:?}", comparison.numbers);
}

#[test]
fn on_texts_of_random_bytes() {
    let mut random = Random::new(44);
    let mut comparison = Comparison::default();
    let few = b"J,CFK10\n2\r\xef\xbb\xbf\"";
    for _ in 0..20_000 {
        let length = random.below(300);
        let any = random.chance(1, 2);
        let byte = |random: &mut Random| {
            if any {
                random.below(256) as u8
            } else {
                random.pick(few)
            }
        };
        let text: Vec<u8> = (0..length).map(|_| byte(&mut random)).collect();
        comparison.job(&text);
    }
}

#[test]
fn on_long_texts() {
    let mut comparison = Comparison::default();
    let header = "J,1,20,1,1,100,1,100,50\n";
    let million = 1_000_000;
    let long = [
        "9".repeat(million),
        "\n".repeat(million),
        ",".repeat(million),
        format!("J{}\n", ",1".repeat(million)),
        format!("{header}C{}\n", ",1".repeat(million)),
        format!("{header}C,0,0,0,1{}x\n", ",1".repeat(million)),
        format!("{header}C,0,0,0,1,{}\n", "1".repeat(million)),
        format!("{header}{}", "C,0,5,0,1,1,1,1,1,1\n".repeat(million / 20)),
    ];
    for text in long {
        comparison.job(text.as_bytes());
        comparison.pair(header.as_bytes(), text.as_bytes());
        let one_cell = format!("{header}C,0,5,0,1,1,1,1,1,1\n");
        comparison.pair(one_cell.as_bytes(), text.as_bytes());
    }
}

#[test]
fn on_damaged_placements() {
    let mut random = Random::new(45);
    let mut comparison = Comparison::default();
    for count in 0..60_000 {
        let (job, placement) = placements::job_with_legal_placement(&mut random);
        let mut job_text = job.text();
        let mut text = text_of(&placement);
        let line = random.below(placement.len() + 1);
        let damage = random.pick(&Damage::ALL);
        damage.inflict(&mut random, &mut text, line);
        if count % 6 == 0 {
            damage.inflict(&mut random, &mut job_text, line);
        }
        if count % 5 == 0 {
            Damage::TextMore.inflict(&mut random, &mut text, 0);
        }
        comparison.pair(&job_text, &text);
    }
    assert!(comparison.numbers[5] > 20_000, "{:?}", comparison.numbers);
}

/// A broken rule is no refusal, whatever the numbers.
#[test]
fn on_wild_placements() {
    let mut random = Random::new(47);
    let mut comparison = Comparison::default();
    for _ in 0..20_000 {
        let job = jobs::job_of_any_size(&mut random);
        let placement = placements::wild(&mut random, &job);
        comparison.pair(&job.text(), &text_of(&placement));
    }
    assert_eq!(comparison.numbers[0], 20_000, "{:?}", comparison.numbers);
}
