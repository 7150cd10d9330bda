//! Many jobs by threads have the answers that each has alone, in their own order, and placements
//! beside them the plain scorer's verdict.

use importer::batch::{gather, run, Done, Failure, Summary, Task, Watch};
use importer::{refine, Broken, Refiner, Refused, Verdict};
use std::fs;
use std::path::{Path, PathBuf};
use trial::generate::damage::Damage;
use trial::generate::{jobs, placements, Random};
use trial::plain::placement::text_of;
use trial::plain::scorer;

const JOBS: usize = 600;

/// How many tasks came to their end.
struct Count(usize);

impl Watch for Count {
    fn done(&mut self, _: &Task, _: &Result<Done, Failure>) {
        self.0 += 1;
    }
}

/// A job's text, and a placement's if one is to stand beside it.
type Texts = (Vec<u8>, Option<Vec<u8>>);

fn texts(random: &mut Random) -> Texts {
    let (job, mut placement) = match random.below(3) {
        0 => {
            let job = jobs::job_of_any_size(random);
            let placement = placements::wild(random, &job);
            (job, placement)
        }
        _ => placements::job_with_row_ends(random),
    };
    if random.chance(1, 2) {
        placements::wander(random, &job, &mut placement);
    }
    let mut text = job.text();
    if random.chance(1, 4) {
        let damage = random.pick(&Damage::ALL);
        let line = random.below(job.cells.len() + 1);
        damage.inflict(random, &mut text, line);
    }
    let mut placement = text_of(&placement);
    if random.chance(1, 8) {
        placement.pop();
    }
    (text, random.chance(3, 4).then_some(placement))
}

fn folder() -> PathBuf {
    let folder = Path::new(env!("CARGO_TARGET_TMPDIR")).join("batch_agrees");
    // Of an earlier run there may be one.
    let _ = fs::remove_dir_all(&folder);
    fs::create_dir_all(&folder).expect("a test may make its folder");
    folder
}

fn write(path: PathBuf, text: &[u8]) {
    fs::write(path, text).expect("a test may write its files");
}

/// Holds what came of a job against what it has alone.
fn check(output: &[u8], done: &Done, (job, placement): &Texts) {
    let alone = refine(job);
    let expected = match &alone {
        Ok(refined) => {
            let line = format!("{}\n", refined.numbers.fields());
            [line.as_bytes(), &refined.text].concat()
        }
        Err(refused) => format!("{}\n", refused.fields()).into_bytes(),
    };
    assert_eq!(output, expected);
    assert_eq!(done.placed, alone.map(|refined| refined.numbers));
    let theirs = placement.as_ref().map(|placement| plain(job, placement));
    assert_eq!(said(done), theirs.unwrap_or_default());
}

/// What is said of the placement beside a job; nothing if there is none or the job is refused.
fn said(done: &Done) -> String {
    match done.theirs {
        None => String::new(),
        Some(Ok(Verdict::Legal(numbers))) => format!("legal {}", numbers.cost),
        Some(Ok(Verdict::Broken(Broken { rule, cell }))) => format!("broken {rule} {cell}"),
        Some(Err(Refused { number, line })) => format!("refused {number} {line}"),
    }
}

/// What the plain scorer says of it.
fn plain(job: &[u8], placement: &[u8]) -> String {
    match scorer::score(job, placement) {
        Ok(Ok(numbers)) => format!("legal {}", numbers.cost),
        Ok(Err(broken)) => format!("broken {} {}", broken.rule, broken.cells.lowest()),
        Err(refused) if refused.number == 5 => format!("refused 5 {}", refused.line),
        Err(_) => String::new(),
    }
}

#[test]
fn threads_answer_as_each_job_alone() {
    let folder = folder();
    let mut random = Random::new(77);
    let all: Vec<Texts> = (0..JOBS).map(|_| texts(&mut random)).collect();
    for (number, (job, placement)) in all.iter().enumerate() {
        write(folder.join(format!("{number:03}.job")), job);
        if let Some(placement) = placement {
            write(folder.join(format!("{number:03}.placement")), placement);
        }
    }
    let tasks = gather([&folder]).tasks;
    assert_eq!(tasks.len(), JOBS);
    let mut count = Count(0);
    let refiners = (0..3).map(|_| Refiner::new()).collect();
    let results = run(&tasks, refiners, &mut count).expect("threads start");
    let summary = Summary::of(&results);
    assert_eq!((results.len(), count.0), (JOBS, JOBS));
    for (number, (result, texts)) in results.iter().zip(&all).enumerate() {
        let done = result.as_ref().expect("files can be read and written");
        let output = fs::read(folder.join(format!("{number:03}.out")));
        check(&output.expect("there is an output"), done, texts);
    }
    // Each end is met often enough to be tried, and so are answers that tell of filled steps.
    let numbers = results.iter().flatten().flat_map(|done| &done.placed);
    let told = numbers.filter(|numbers| numbers.filled.is_some()).count();
    assert!(told > 20, "{told}");
    let refused: usize = summary.refused.values().sum();
    let met = [&[summary.answered, refused][..], &summary.placements].concat();
    assert!(met.iter().all(|count| *count > 20), "{summary:?}");
}
