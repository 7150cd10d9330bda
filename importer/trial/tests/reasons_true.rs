//! Sentences are true: the cells that one names break its rule without the others, and the others
//! keep the rule without them.

use importer::{sentence, Sentence};
use trial::generate::{broken, Random};
use trial::plain::job::Job;
use trial::plain::placement::{text_of, Placement};

/// What the sentence on a placement says.
fn said(job: &Job, placement: &Placement) -> Sentence {
    let said = sentence(&job.text(), &text_of(placement));
    let said = said.expect("both texts are accepted");
    said.parse()
        .unwrap_or_else(|error| panic!("{error}: {said}"))
}

/// The job and its placement with some of the cells alone, which are told by their number.
fn with(job: &Job, placement: &Placement, kept: impl Fn(u32) -> bool) -> (Job, Placement) {
    let cells = job.cells.iter().zip(placement).zip(1..);
    let kept = cells.filter(|(_, number)| kept(*number));
    let (cells, poses) = kept.map(|((cell, pose), _)| (*cell, *pose)).unzip();
    let job = Job {
        cells,
        ..job.clone()
    };
    (job, poses)
}

/// Rules 1 to 4. Without some cells others may come to stand one site apart, have another place in
/// their row or be its first or last, so the rules behind these are left out.
#[test]
fn those_that_are_named_break_the_rule_and_the_others_keep_it() {
    let mut random = Random::new(109);
    let mut seen = [0; 5];
    for count in 0..20_000 {
        let (job, placement) = broken::job_with_broken_rule(&mut random, 1 + count % 4);
        let (rule, cells) = match said(&job, &placement) {
            Sentence::Broken { rule, cells } if rule <= 4 => (rule, cells),
            _ => continue,
        };
        seen[rule as usize] += 1;
        let named = |number: u32| cells.contains(&number);
        let (alone, poses) = with(&job, &placement, named);
        let all = (1..).take(cells.len()).collect();
        assert_eq!(said(&alone, &poses), Sentence::Broken { rule, cells: all });
        let (others, poses) = with(&job, &placement, |number| !named(number));
        if let Sentence::Broken { rule: next, .. } = said(&others, &poses) {
            assert!(next > rule, "{next} after {rule}");
        }
    }
    assert!(seen[1..].iter().all(|&seen| seen > 500), "{seen:?}");
}
