//! The desk's tools against the plain refiner, on generated jobs and placements.

use importer::desk::{gaps, Comparison, Diffusion, Gap, RowGaps, Step, Tally, WIDTHS};
use importer::{refine, score, Refined};
use trial::generate::{placements, Random};
use trial::plain::job::Job;
use trial::plain::placement::{read_placement, text_of, Placement, Pose};
use trial::plain::rules::{legal_rows, Broken};
use trial::plain::scorer::{verdict, Verdict};
use trial::plain::search::cheapest;

/// A job and a placement, legal or nearly so.
fn draw(random: &mut Random) -> (Job, Placement) {
    let (job, mut placement) = match random.below(3) {
        0 => placements::job_with_row_ends(random),
        _ => placements::job_with_legal_placement(random),
    };
    if random.chance(1, 2) {
        let rule = 1 + random.below(8) as u32;
        placements::break_rule(random, rule, &job, &mut placement);
    }
    (job, placement)
}

/// The sites of a row, each with how many cells stand on it; none if a cell has no such layout or
/// leaves the row.
fn sites(job: &Job, placement: &[Pose], row: usize) -> Option<Vec<usize>> {
    let mut sites = vec![0; job.sites.into()];
    for (cell, pose) in job.cells.iter().zip(placement) {
        if cell.rows().contains(&row) {
            if pose.layout >= cell.layouts {
                return None;
            }
            let (from, end) = (pose.site.into(), pose.end(cell).into());
            sites
                .get_mut(from..end)?
                .iter_mut()
                .for_each(|cells| *cells += 1);
        }
    }
    Some(sites)
}

/// The widths of a row's gaps from left to right, read from its sites; none if it cannot be drawn
/// or cells share a site.
fn widths(job: &Job, placement: &[Pose], row: usize) -> Option<Vec<u32>> {
    let sites = sites(job, placement, row)?;
    let starts = |site: usize| {
        let here = |(cell, pose): (&trial::plain::job::Cell, &Pose)| {
            cell.rows().contains(&row) && usize::from(pose.site) == site
        };
        job.cells.iter().zip(placement).any(here)
    };
    let mut widths = vec![0];
    for (site, cells) in sites.iter().enumerate() {
        match cells {
            0 => *widths.last_mut()? += 1,
            1 if starts(site) => widths.push(0),
            1 => {}
            _ => return None,
        }
    }
    Some(widths)
}

/// How many gaps have this width, where 4 stands for all from 4 on.
fn with_width<'gaps>(widths: impl IntoIterator<Item = &'gaps u32>, width: u32) -> u32 {
    let widths = widths.into_iter();
    widths.filter(|&&found| found.min(4) == width).count() as u32
}

/// Holds a row's tallies against its widths.
fn check_tallies(tallies: &[Tally], widths: &[u32]) {
    let [first, between @ .., last] = widths else {
        return;
    };
    for (&width, tally) in WIDTHS.iter().zip(tallies) {
        let ends = (with_width([first], width), with_width([last], width));
        assert_eq!((tally.left_end, tally.right_end), ends);
        assert_eq!(tally.between, with_width(between, width));
    }
    let filled: u32 = tallies
        .iter()
        .map(|tally| 2 * tally.fillers.of_two + 3 * tally.fillers.of_three)
        .sum();
    let empty: u32 = widths.iter().filter(|&&width| width != 1).sum();
    assert_eq!(filled, empty);
}

/// What the verdict says of gaps of one site: between cells by rule 5, at an end by rule 8.
fn check_open(verdict: &Verdict, rows: &[RowGaps]) {
    let inner = |gap: &&Gap| gap.left.is_some() && gap.right.is_some();
    let open = || {
        rows.iter()
            .filter(|row| row.cells > 0)
            .flat_map(RowGaps::open)
    };
    match verdict {
        Ok(_) => assert_eq!(open().next(), None),
        Err(Broken { rule: 5, .. }) => assert!(open().any(|gap| inner(&gap))),
        Err(Broken { rule: 6..=7, .. }) => assert_eq!(open().find(inner), None),
        Err(Broken { rule: 8, .. }) => {
            assert_eq!(open().find(inner), None);
            assert!(open().next().is_some());
        }
        Err(_) => {}
    }
}

#[test]
fn gaps_are_those_of_the_sites() {
    let mut random = Random::new(81);
    // Verdicts by rule, 0 for legal, and rows that were skipped.
    let (mut seen, mut skipped) = ([0; 9], 0);
    for _ in 0..30_000 {
        let (job, placement) = draw(&mut random);
        let verdict = verdict(&job, &placement);
        let rows = gaps(&job.text(), &text_of(&placement)).expect("both texts are accepted");
        assert_eq!(rows.len(), usize::from(job.rows));
        for row in &rows {
            let widths = widths(&job, &placement, row.row as usize);
            let told = row.gaps.as_ref().ok();
            let told = told.map(|gaps| gaps.iter().map(|gap| gap.width).collect());
            assert_eq!(told, widths, "{}", job.text().escape_ascii());
            match (row.tallies(), widths) {
                (Ok(tallies), Some(widths)) => check_tallies(&tallies, &widths),
                _ => {
                    skipped += 1;
                    assert!(matches!(verdict, Err(Broken { rule: 1..=4, .. })));
                }
            }
        }
        check_open(&verdict, &rows);
        seen[verdict.map_or_else(|broken| broken.rule as usize, |_| 0)] += 1;
    }
    assert!(seen.iter().all(|&seen| seen > 30), "{seen:?}");
    assert!(skipped > 1_000, "{skipped}");
}

/// The heights P and N that a cell turns to its left or to its right neighbour in a row.
fn facing(job: &Job, placement: &[Pose], cell: u8, row: usize, to_the_right: bool) -> [u16; 2] {
    let (cell, pose) = (&job.cells[usize::from(cell)], &placement[usize::from(cell)]);
    let [left_p, left_n, right_p, right_n] = pose.layout_of(cell).heights[row];
    if to_the_right == (pose.mark == 0) {
        [right_p, right_n]
    } else {
        [left_p, left_n]
    }
}

/// All steps of a legal placement, as the plain refiner's rows and heights have them.
fn plain_steps(job: &Job, placement: &[Pose]) -> Vec<Step> {
    let rows = legal_rows(job, placement).expect("the placement is legal");
    let mut steps = Vec::new();
    for (row, order) in rows.iter().enumerate() {
        for (left, right) in order.neighbours() {
            let gap = u32::from(right.site - left.end);
            let ours = facing(job, placement, left.cell, row, true);
            let theirs = facing(job, placement, right.cell, row, false);
            for (at, diffusion) in [Diffusion::P, Diffusion::N].into_iter().enumerate() {
                if [0, 2, 3].contains(&gap) && ours[at] != theirs[at] {
                    steps.push(Step {
                        row: row as u32,
                        left: u32::from(left.cell) + 1,
                        right: u32::from(right.cell) + 1,
                        diffusion,
                        gap,
                    });
                }
            }
        }
    }
    steps
}

/// Holds the steps of a comparison against those of both placements.
fn check_steps(comparison: &Comparison, before: &[Step], after: &[Step]) -> [usize; 3] {
    let changes = comparison
        .steps
        .as_ref()
        .expect("both placements are legal");
    let among = |steps: &[Step], step: &Step| steps.iter().any(|other| other.is_that(step));
    for step in &changes.gone {
        assert!(before.contains(step) && !among(after, step), "{step:?}");
    }
    for step in &changes.new {
        assert!(after.contains(step) && !among(before, step), "{step:?}");
    }
    let (kept, gone, new) = (changes.kept, changes.gone.len(), changes.new.len());
    assert_eq!((kept + gone, kept + new), (before.len(), after.len()));
    [kept, gone, new]
}

/// Holds the cells of a comparison against both placements.
fn check_cells(comparison: &Comparison, theirs: &[Pose], cheapest: &[Pose]) {
    let mut changes = comparison.cells.iter();
    for (number, (theirs, cheapest)) in (1..).zip(theirs.iter().zip(cheapest)) {
        if theirs == cheapest {
            continue;
        }
        let change = changes.next().expect("a cell that differs is told");
        let told = [change.theirs, change.cheapest].map(|pose| [pose.site, pose.layout, pose.mark]);
        let poses = [theirs, cheapest].map(|pose| [pose.site, pose.layout, pose.mark]);
        assert_eq!(change.cell, number);
        assert_eq!(told, poses.map(|pose| pose.map(u32::from)));
    }
    assert_eq!(changes.next(), None);
}

#[test]
fn comparisons_are_those_of_the_plain_refiner() {
    let mut random = Random::new(82);
    // Comparisons of a legal placement, of one that is not, and all steps kept, gone and new; and
    // jobs that weigh filled steps.
    let (mut seen, mut steps, mut filled) = ([0; 2], [0; 3], 0);
    for _ in 0..3_000 {
        let (job, placement) = draw(&mut random);
        let (job_text, text) = (job.text(), text_of(&placement));
        let Ok(refined) = refine(&job_text) else {
            assert_eq!(cheapest(&job), None);
            continue;
        };
        let least = cheapest(&job).and_then(|placement| verdict(&job, &placement).ok());
        let theirs = score(&job_text, &text).expect("both texts are accepted");
        let comparison = Comparison::of(&job_text, &text, theirs, &refined);
        let Refined { numbers, text } = refined;
        assert_eq!(least.map(|least| least.cost), Some(numbers.cost));
        let found = read_placement(&text, job.cells.len()).expect("a placement's text");
        check_cells(&comparison, &placement, &found);
        match verdict(&job, &placement) {
            Ok(plain) => {
                let lost = plain.cost - numbers.cost;
                assert_eq!(comparison.lost(), Some(lost));
                let (before, after) = (plain_steps(&job, &placement), plain_steps(&job, &found));
                assert_eq!(before.len(), plain.steps as usize);
                let filled_steps = before.iter().filter(|step| step.gap > 0).count();
                assert_eq!(filled_steps, plain.filled_steps as usize);
                filled += usize::from(job.weights.filled.is_some());
                let counts = check_steps(&comparison, &before, &after);
                steps
                    .iter_mut()
                    .zip(counts)
                    .for_each(|(all, count)| *all += count);
                seen[0] += 1;
            }
            Err(_) => {
                assert_eq!((comparison.lost(), &comparison.steps), (None, &None));
                seen[1] += 1;
            }
        }
    }
    assert!(seen.iter().all(|&seen| seen > 500), "{seen:?}");
    assert!(steps.iter().all(|&steps| steps > 500), "{steps:?}");
    assert!(filled > 100, "{filled} weigh filled steps");
}
