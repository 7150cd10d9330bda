//! Read against the plain reader, on generated texts.

use std::collections::BTreeMap;
use std::fmt::Write;
use trial::generate::damage::Damage;
use trial::generate::{jobs, Random};
use trial::lent::Arrays;
use trial::plain::job::Job;
use trial::plain::reader::read_job;

/// Holds Read against the plain reader, text by text, and counts what was seen.
#[derive(Default)]
struct Comparison {
    arrays: Arrays,
    texts: usize,
    /// How many texts had each number, 0 for those that were accepted.
    numbers: [usize; 5],
}

impl Comparison {
    fn compare(&mut self, text: &[u8]) {
        let expected = match read_job(text) {
            Ok(job) => [0, 0, job.cells.len() as i32],
            Err(refused) => [refused.number as i32, refused.line as i32, 0],
        };
        self.texts += 1;
        self.numbers[expected[0] as usize] += 1;
        let left = self
            .arrays
            .lend(|results| importer::calls::read(text, results));
        if let Err(difference) = left.check(expected[0] as u32, &expected) {
            panic!("Read {difference} of\n{}", text.escape_ascii());
        }
    }
}

#[test]
fn on_accepted_jobs_of_every_size() {
    let mut random = Random::new(1);
    let mut comparison = Comparison::default();
    for cells in 0..=64 {
        for _ in 0..100 {
            comparison.compare(&jobs::job(&mut random, cells).text());
        }
    }
    assert_eq!(comparison.numbers[0], comparison.texts);
}

#[test]
fn on_texts_with_one_damage_and_with_two() {
    let mut random = Random::new(2);
    let mut comparison = Comparison::default();
    for count in 0..120_000 {
        let job = jobs::job_of_any_size(&mut random);
        let mut text = job.text();
        for _ in 0..1 + count % 2 {
            let line = random.below(job.cells.len() + 1);
            random
                .pick(&Damage::ALL)
                .inflict(&mut random, &mut text, line);
        }
        comparison.compare(&text);
    }
    let seen = comparison.numbers;
    let enough = seen.iter().zip([10_000, 10_000, 10_000, 0, 1_000]);
    assert!(
        enough.into_iter().all(|(&seen, least)| seen >= least),
        "{seen:?}"
    );
}

/// A job whose filled steps have a weight of their own.
fn job_with_filled_steps(random: &mut Random) -> Job {
    let mut job = jobs::job_of_any_size(random);
    job.weights = jobs::with_filled(random, job.weights);
    job
}

/// What was seen of first lines.
#[derive(Debug, Default)]
struct FirstLines {
    /// How many texts have each lead, with so many fields.
    fields: BTreeMap<(Vec<u8>, usize), usize>,
    /// How many begin with `K,`.
    led_by_k: usize,
    /// Those of them that are refused for the range of their last field alone.
    filled_out_of_range: usize,
}

impl FirstLines {
    fn count(&mut self, text: &[u8]) {
        let line = text.split(|&byte| byte == b'\n').next();
        let line = line.unwrap_or_default();
        let fields: Vec<&[u8]> = line.split(|&byte| byte == b',').collect();
        let kind = (fields[0].to_vec(), fields.len());
        *self.fields.entry(kind).or_default() += 1;
        if let [b"K", others @ .., filled] = &fields[..] {
            self.led_by_k += 1;
            let others = others.join(&b',');
            let number = |filled: &[u8]| {
                let line = [b"K,", &others[..], b",", filled, b"\n"].concat();
                read_job(&line).err().map(|refused| refused.number)
            };
            let alone = number(filled) == Some(2) && number(b"0").is_none();
            self.filled_out_of_range += usize::from(alone);
        }
    }
}

/// Damage is done to the first line more often than not.
#[test]
fn on_damaged_texts_led_by_k() {
    let mut random = Random::new(7);
    let mut comparison = Comparison::default();
    let mut first_lines = FirstLines::default();
    for count in 0..120_000 {
        let job = job_with_filled_steps(&mut random);
        let mut text = job.text();
        for _ in 0..count % 3 {
            let line = match random.chance(2, 3) {
                true => 0,
                false => random.below(job.cells.len() + 1),
            };
            random
                .pick(&Damage::ALL)
                .inflict(&mut random, &mut text, line);
        }
        first_lines.count(&text);
        comparison.compare(&text);
    }
    let FirstLines {
        fields,
        led_by_k,
        filled_out_of_range,
    } = &first_lines;
    assert!(*led_by_k > 100_000, "{led_by_k}");
    assert!(*filled_out_of_range > 200, "{filled_out_of_range}");
    let kinds = [
        ("K", 1),
        ("K", 9),
        ("K", 10),
        ("K", 11),
        ("J", 10),
        ("KJ", 10),
    ];
    for (lead, count) in kinds {
        let met = fields.get(&(lead.into(), count));
        assert!(met.is_some_and(|&met| met > 100), "{lead} {count}: {met:?}");
    }
    let [accepted, form, range, _, order] = comparison.numbers;
    assert!(
        accepted > 40_000 && form > 10_000,
        "{:?}",
        comparison.numbers
    );
    assert!(range > 5_000 && order > 500, "{:?}", comparison.numbers);
}

/// A text with the lead of each cell line exchanged, `F` for `C` and `C` for `F`, as often as not.
fn with_leads_exchanged(random: &mut Random, text: &[u8]) -> Vec<u8> {
    let mut text = text.to_vec();
    for at in 1..text.len() {
        let is_lead =
            text[at - 1] == b'\n' && matches!(text.get(at + 1), Some(b',' | b'\n') | None);
        if is_lead && random.chance(1, 2) {
            text[at] = match text[at] {
                b'C' => b'F',
                b'F' => b'C',
                other => other,
            };
        }
    }
    text
}

/// A line is refused led by `F` as it is led by `C` (A2): with the same number at the same line.
#[test]
fn on_damaged_texts_with_leads_exchanged() {
    let mut random = Random::new(6);
    let mut comparison = Comparison::default();
    let mut exchanged = [0; 5];
    for _ in 0..100_000 {
        let cells = 1 + random.below(8);
        let job = jobs::job(&mut random, cells);
        let mut text = job.text();
        if random.chance(9, 10) {
            let line = 1 + random.below(job.cells.len());
            random
                .pick(&Damage::ALL)
                .inflict(&mut random, &mut text, line);
        }
        let other = with_leads_exchanged(&mut random, &text);
        let said = importer::read(&text);
        assert_eq!(importer::read(&other), said, "{}", text.escape_ascii());
        comparison.compare(&other);
        let line = said.err().map_or(0, |refused| refused.line as usize - 1);
        let refused = |text: &[u8]| {
            text.split(|&byte| byte == b'\n')
                .nth(line)
                .map(<[u8]>::to_vec)
        };
        let number = said.err().map_or(0, |refused| refused.number as usize);
        exchanged[number] += usize::from(refused(&text) != refused(&other));
    }
    let [_, refused @ ..] = exchanged;
    assert!(refused[0] > 5_000 && refused[1] > 5_000, "{exchanged:?}");
    assert!(refused[3] > 500, "{exchanged:?}");
}

#[test]
fn on_each_damage_to_each_line() {
    let mut random = Random::new(3);
    let mut comparison = Comparison::default();
    for cells in [0, 1, 2, 7, 24, 63, 64] {
        let mut job = jobs::job(&mut random, cells);
        for count in 0..6 {
            job.weights.filled = (count % 2 == 1).then_some(30);
            let text = job.text();
            Damage::each(&mut random, &text, cells + 1, |text| {
                comparison.compare(text)
            });
        }
    }
}

#[test]
fn on_jobs_with_too_many_cells() {
    let mut random = Random::new(4);
    let mut comparison = Comparison::default();
    for _ in 0..2_000 {
        let job = jobs::job_about_the_limits(&mut random);
        let mut text = job.text();
        if random.chance(1, 4) {
            let line = 60 + random.below(12);
            random
                .pick(&Damage::ALL)
                .inflict(&mut random, &mut text, line);
        }
        comparison.compare(&text);
    }
    assert!(comparison.numbers[3] > 500, "{:?}", comparison.numbers);
}

#[test]
fn on_texts_of_random_bytes() {
    let mut random = Random::new(5);
    let mut comparison = Comparison::default();
    let few = b"J,CFK10\n2";
    for _ in 0..20_000 {
        let length = random.below(40);
        let any = random.chance(1, 2);
        let text: Vec<u8> = (0..length)
            .map(|_| {
                if any {
                    random.below(256) as u8
                } else {
                    random.pick(few)
                }
            })
            .collect();
        comparison.compare(&text);
    }
}

/// Compares texts with every value of the number form and past it, in every field of one line.
fn compare_values(comparison: &mut Comparison, lines: &[&str], changed: usize) {
    for field in 0..lines[changed].split(',').count() {
        for value in (0..1100).chain([9_998, 9_999, 10_000, 65_536, 4_294_967_297_u64]) {
            let mut text = String::new();
            for (at, line) in lines.iter().enumerate() {
                let mut fields: Vec<&str> = line.split(',').collect();
                let value = value.to_string();
                if at == changed {
                    fields[field] = &value;
                }
                writeln!(text, "{}", fields.join(",")).expect("a string takes every write");
            }
            comparison.compare(text.as_bytes());
        }
    }
}

/// In a header led by `J` and one led by `K`, and in five cell lines.
#[test]
fn on_every_value_of_every_field() {
    let mut comparison = Comparison::default();
    let lines = [
        "J,2,40,3,1,100,1,100,50",
        "C,0,2,1,1,4,3,3,2,2",
        "C,1,2,1,2,4,3,3,2,2,5,1,1,1,1",
        "C,2,6,0,1,4,3,3,2,2,4,4,4,4",
        "F,0,6,0,1,4,3,3,2,2",
        "F,2,6,1,2,4,3,3,2,2,4,4,4,4,5,3,3,2,2,1,1,1,1",
    ];
    for changed in 0..lines.len() {
        compare_values(&mut comparison, &lines, changed);
    }
    let led_by_k = ["K,2,40,3,1,100,1,100,50,30", lines[1]];
    for changed in 0..led_by_k.len() {
        compare_values(&mut comparison, &led_by_k, changed);
    }
}

#[test]
fn on_long_texts() {
    let mut comparison = Comparison::default();
    let header = "J,1,20,1,1,100,1,100,50\n";
    let million = 1_000_000;
    let long = [
        "9".repeat(million),
        "\n".repeat(million),
        "\0".repeat(million),
        format!("J{}", ",1".repeat(million)),
        format!("K{}", ",1".repeat(million)),
        format!("K{}\n", ",1".repeat(million)),
        format!("{header}C{}", ",1".repeat(million)),
        format!("{header}C{}\n", ",1".repeat(million)),
        format!("{header}C,9{}\n", ",1".repeat(million)),
        format!("{header}C,9{}x\n", ",1".repeat(million)),
        format!("{header}{}", "C,0,5,0,1,1,1,1,1,1\n".repeat(million / 20)),
    ];
    for text in long {
        comparison.compare(text.as_bytes());
    }
}
