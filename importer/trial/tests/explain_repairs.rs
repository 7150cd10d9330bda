//! Explanations are true: whoever does what they say, one after another, ends with a text that the
//! refiner accepts. A wrong field, a wrong range or a wrong count would leave its refusal standing.

use importer::explain::{job_line, placement_line};
use importer::{read, score, Refused};
use trial::generate::damage::Damage;
use trial::generate::{jobs, placements, Random};
use trial::plain::placement::text_of;

/// More repairs than any text here needs.
const MOST_REPAIRS: usize = 5_000;

/// A line with its line feed, if it has one.
type Line = Vec<u8>;

/// Does to a text what the words about a line, counted from 1, ask for.
fn repair(text: &[u8], line: u32, words: &str) -> Vec<u8> {
    let lines = text.split_inclusive(|&byte| byte == b'\n');
    let mut lines: Vec<Line> = lines.map(<[u8]>::to_vec).collect();
    let at = line as usize - 1;
    if words == "the job is empty" {
        lines.push(b"J,1,1,0,0,0,0,0,0\n".to_vec());
    } else if words.starts_with("the line is missing") {
        lines.push(b"0,0,0\n".to_vec());
    } else if words.starts_with("the text starts with a UTF-8") {
        lines[at].drain(..3);
    } else if words.starts_with("the text starts with a UTF-16") {
        lines[at].drain(..2);
    } else if words.starts_with("line ends with CR LF") {
        let carriage_return = lines[at].len() - 2;
        lines[at].remove(carriage_return);
    } else if words == "the last line has no line feed" {
        lines[at].push(b'\n');
    } else if words == "the line is empty" || surplus(words) {
        lines.remove(at);
    } else if let Some(field) = words.strip_prefix("field ") {
        let number = first_number(field);
        lines[at] = with_field(&lines[at], number - 1, &wanted(words));
    } else {
        lines[at] = with_fields(&lines[at], wanted_fields(words));
    }
    lines.concat()
}

fn surplus(words: &str) -> bool {
    words.contains(" too many: the job has ") || words.contains("; a job has at most ")
}

/// The number that a text begins with.
fn first_number(text: &str) -> usize {
    let end = text.find(|letter: char| !letter.is_ascii_digit());
    let number = text[..end.unwrap_or(text.len())].parse();
    number.unwrap_or_else(|_| panic!("no number before {text:?}"))
}

/// What stands behind a part of some words.
fn behind<'words>(words: &'words str, part: &str) -> Option<&'words str> {
    words.rsplit_once(part).map(|(_, behind)| behind)
}

/// The value that the words about a field ask for.
fn wanted(words: &str) -> String {
    if let Some(leads) = behind(words, " begins with ") {
        // The words may offer several; the last one serves.
        behind(leads, " or ").unwrap_or(leads).into()
    } else if let Some(range) = behind(words, "; allowed ").or_else(|| behind(words, ", below ")) {
        first_number(range).to_string()
    } else {
        "1".into()
    }
}

/// How many fields words about their number ask for.
fn wanted_fields(words: &str) -> usize {
    let parts = [" has at least ", " line has ", ", "];
    let range = parts.iter().find_map(|part| behind(words, part));
    first_number(range.unwrap_or_else(|| panic!("{words}")))
}

fn with_field(line: &[u8], at: usize, value: &str) -> Line {
    let body = line.strip_suffix(b"\n").unwrap_or(line);
    let mut fields: Vec<&[u8]> = body.split(|&byte| byte == b',').collect();
    fields[at] = value.as_bytes();
    [&fields.join(&b','), &line[body.len()..]].concat()
}

/// The line cut or lengthened to so many fields.
fn with_fields(line: &[u8], count: usize) -> Line {
    let body = line.strip_suffix(b"\n").unwrap_or(line);
    let mut fields: Vec<&[u8]> = body.split(|&byte| byte == b',').collect();
    fields.resize(count, b"1");
    [&fields.join(&b','), &line[body.len()..]].concat()
}

/// Repairs a text until it is no longer refused, and counts the repairs.
fn repairs(
    text: &mut Vec<u8>,
    refused: impl Fn(&[u8]) -> Option<Refused>,
    words: impl Fn(&[u8], &Refused) -> Option<String>,
) -> usize {
    for repairs in 0..MOST_REPAIRS {
        let Some(refused) = refused(text) else {
            return repairs;
        };
        let words = words(text, &refused).unwrap_or_else(|| panic!("no words for {refused:?}"));
        let repaired = repair(text, refused.line, &words);
        assert_ne!(*text, repaired, "{words}");
        *text = repaired;
    }
    panic!("refused after so many repairs:\n{}", text.escape_ascii());
}

fn repair_job(text: &mut Vec<u8>) -> usize {
    repairs(text, |text| read(text).err(), job_line)
}

#[test]
fn damaged_jobs_are_repaired() {
    let mut random = Random::new(51);
    let mut repaired = 0;
    for _ in 0..12_000 {
        let job = jobs::job_of_any_size(&mut random);
        let mut text = job.text();
        for _ in 0..random.below(5) {
            let line = random.below(job.cells.len() + 1);
            let damage = random.pick(&Damage::ALL);
            damage.inflict(&mut random, &mut text, line);
        }
        if random.chance(1, 20) {
            let mark: &[u8] = random.pick(&[b"\xef\xbb\xbf", b"\xff\xfe"]);
            text.splice(0..0, mark.iter().copied());
        }
        repaired += repair_job(&mut text);
    }
    assert!(repaired > 15_000, "{repaired}");
}

#[test]
fn jobs_with_too_many_cells_are_repaired() {
    let mut random = Random::new(52);
    for _ in 0..200 {
        let mut job = jobs::job(&mut random, 60);
        job.rows = 2;
        for _ in 0..12 {
            let mut cell = jobs::cell(&mut random, 2, 64, 15);
            cell.given = random.from_to(0, 1023);
            job.cells.push(cell);
        }
        repair_job(&mut job.text());
    }
}

#[test]
fn texts_of_random_bytes_are_repaired() {
    let mut random = Random::new(53);
    for _ in 0..2_000 {
        let length = random.below(200);
        let byte = |_| random.pick(b"J,CFK10\n2\r\xef\xbb\xbf\" 9999");
        repair_job(&mut (0..length).map(byte).collect());
    }
}

/// A job whose every field can be changed alone.
const LINES: [&str; 6] = [
    "J,2,40,3,1,100,1,100,50\n",
    "C,0,2,1,1,4,3,3,2,2\n",
    "C,1,2,1,2,4,3,3,2,2,5,1,1,1,1\n",
    "C,2,6,0,1,4,3,3,2,2,4,4,4,4\n",
    "F,0,6,1,1,4,3,3,2,2\n",
    "F,2,6,1,2,4,3,3,2,2,4,4,4,4,4,3,3,2,2,4,4,4,4\n",
];

/// The same job led by `K`.
const LED_BY_K: &str = "K,2,40,3,1,100,1,100,50,30\n";

/// The job with another value in one field of one line, both counted from 0.
fn changed(lines: &[&str], line: usize, field: usize, value: u32) -> Vec<u8> {
    let mut lines: Vec<Line> = lines.iter().map(|line| line.as_bytes().to_vec()).collect();
    lines[line] = with_field(&lines[line], field, &value.to_string());
    lines.concat()
}

/// Words about a value that no field may have tell the field's range: the refiner refuses a value
/// for its range if and only if it is not in it.
#[test]
fn ranges_are_those_of_the_refiner() {
    for first in [LINES[0], LED_BY_K] {
        let mut lines = LINES;
        lines[0] = first;
        check_ranges(&lines);
    }
}

fn check_ranges(lines: &[&str]) {
    for (at, line) in lines.iter().enumerate() {
        let refused = Refused {
            number: 2,
            line: at as u32 + 1,
        };
        for field in 1..line.split(',').count() {
            let words = job_line(&changed(lines, at, field, 9_999), &refused).unwrap_or_default();
            let range = behind(&words, "; allowed ").unwrap_or_else(|| panic!("{words}"));
            let (_, high) = range.rsplit_once(' ').unwrap_or_else(|| panic!("{words}"));
            let range = first_number(range) as u32..=first_number(high) as u32;
            for value in (0..1_100).chain([9_999]) {
                let said = read(&changed(lines, at, field, value)).err();
                let in_range = said != Some(refused);
                assert_eq!(in_range, range.contains(&value), "{value}: {words}");
            }
        }
    }
}

#[test]
fn damaged_placements_are_repaired() {
    let mut random = Random::new(54);
    let mut repaired = 0;
    for _ in 0..12_000 {
        let (job, placement) = placements::job_with_legal_placement(&mut random);
        let job = job.text();
        let mut text = text_of(&placement);
        for _ in 0..random.below(5) {
            let line = random.below(placement.len() + 1);
            let damage = random.pick(&Damage::ALL);
            damage.inflict(&mut random, &mut text, line);
        }
        repaired += repairs(
            &mut text,
            |text| score(&job, text).err(),
            |text, refused| placement_line(&job, text, refused),
        );
    }
    assert!(repaired > 15_000, "{repaired}");
}
