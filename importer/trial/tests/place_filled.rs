//! The same job with one weight for all steps and with two (A7).

use trial::generate::legal::{Shape, HEAVY};
use trial::generate::{jobs, legal, small, Random};
use trial::lender::{store_words, Lender};
use trial::plain::job::{Job, MOST_REORDERING};
use trial::plain::placement::read_placement;
use trial::plain::scorer::verdict;

/// The job with these weights of steps; led by `J` if there is none of filled ones.
fn with_steps(job: &Job, step: u16, filled: Option<u16>) -> Job {
    let mut job = job.clone();
    job.weights.step = step;
    job.weights.filled = filled;
    job
}

/// A job of 8 to 40 cells whose given rows are legal and have gaps of two and three sites.
fn large(random: &mut Random) -> Job {
    let cells = 8 + random.below(33);
    let shape = Shape {
        cells,
        tall: random.pick(&[0, 1, cells / 8, cells / 4, cells * 3 / 8]),
        early: random.below(cells),
        most_width: random.pick(&[1, 2, 3, 12]),
        displacement: random.from_to(1, 7),
        reordering: random.from_to(0, MOST_REORDERING),
        gaps: random.pick(&[&[0, 0, 2], &[0, 2, 3], HEAVY.gaps]),
        ..HEAVY
    };
    let mut job = legal::job(random, &shape);
    job.weights = jobs::weights(random);
    job
}

/// What Place leaves of a job: results, and output with its text.
fn left_by_place(job: &Job) -> (Vec<i32>, Vec<u8>) {
    let mut store = vec![0; store_words(job)];
    let mut output = vec![b'x'; 9 * job.cells.len()];
    let mut results = vec![-1; 10];
    importer::calls::place(&job.text(), &mut store, &mut output, &mut results);
    (results, output)
}

/// The filled steps of a legal placement's text, by the plain scorer.
fn filled_steps(job: &Job, text: &[u8]) -> Option<i32> {
    let placement = read_placement(text, job.cells.len()).ok()?;
    let numbers = verdict(job, &placement).ok()?;
    Some(numbers.filled_steps as i32)
}

/// A `J` header means that both weights are equal: the same job led by `K` that says so has the same
/// refusal or the same text and numbers, and the seventh between drift and length.
#[test]
fn equal_weights_are_one() {
    let mut random = Random::new(55);
    // Jobs that have no placement, that have one, and whose placement has filled steps.
    let (mut none, mut placed, mut filled) = (0, 0, 0);
    for count in 0..2_000 {
        let job = match count % 10 {
            0 => large(&mut random),
            _ => small::job_with_filled_steps(&mut random),
        };
        let step = job.weights.step;
        let [one, two] = [None, Some(step)].map(|filled| with_steps(&job, step, filled));
        let (of_one, output) = left_by_place(&one);
        let (of_two, output_of_two) = left_by_place(&two);
        let text = || two.text().escape_ascii().to_string();
        assert_eq!(output, output_of_two, "{}", text());
        assert_eq!(of_one[..8], of_two[..8], "{}", text());
        // The length is one entry further on, and the entry behind it is as it was.
        assert_eq!((of_one[8], of_one[9]), (of_two[9], -1), "{}", text());
        let filled_steps = filled_steps(&two, &output[..of_two[9] as usize]);
        assert_eq!(of_two[8], filled_steps.unwrap_or(0), "{}", text());
        none += usize::from(of_two[0] == 8);
        placed += usize::from(of_two[0] == 0);
        filled += usize::from(of_two[8] > 0);
    }
    assert_eq!(none + placed, 2_000);
    assert!(none > 300 && filled > 300, "{none} {filled}");
}

/// The least cost; none counts as more than any.
fn cost(lender: &mut Lender, job: &Job) -> u32 {
    let placed = lender.place(job);
    let placed = placed.unwrap_or_else(|fault| panic!("{fault} of\n{}", job.text().escape_ascii()));
    placed.map_or(u32::MAX, |numbers| numbers.cost)
}

/// No placement costs less if a weight grows: two weights cost what lies between the lesser for all
/// steps and the greater for all.
#[test]
fn costs_lie_between_those_of_one_weight() {
    let mut random = Random::new(56);
    let mut lender = Lender::default();
    // Jobs in which one weight costs less, in which the other costs more, and both.
    let mut differ = [0; 3];
    for _ in 0..300 {
        let job = large(&mut random);
        let [step, filled] = random.pick(&[[5, 40], [40, 5], [0, 1000], [1000, 0], [90, 100]]);
        let two = cost(&mut lender, &with_steps(&job, step, Some(filled)));
        let [low, high] = [step.min(filled), step.max(filled)];
        let [low, high] = [low, high].map(|step| cost(&mut lender, &with_steps(&job, step, None)));
        let text = || job.text().escape_ascii().to_string();
        assert!(
            low <= two && two <= high,
            "{low} {two} {high} of\n{}",
            text()
        );
        let kinds = [low < two, two < high, low < two && two < high];
        for (count, kind) in differ.iter_mut().zip(kinds) {
            *count += usize::from(kind);
        }
    }
    assert!(differ.iter().all(|&jobs| jobs > 60), "{differ:?}");
}
