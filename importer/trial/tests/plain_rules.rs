//! The plain scorer's verdict against the rules word by word, cell by cell and pair by pair.

use trial::generate::{jobs, placements, Random};
use trial::plain::cells::Cells;
use trial::plain::job::Job;
use trial::plain::placement::Pose;
use trial::plain::rules::Broken;
use trial::plain::scorer::verdict;

/// A job and a placement of it.
struct Placed<'a> {
    job: &'a Job,
    poses: &'a [Pose],
}

impl Placed<'_> {
    fn cells(&self) -> std::ops::Range<usize> {
        0..self.poses.len()
    }

    /// The cells of a row, in file order.
    fn row(&self, row: usize) -> Vec<usize> {
        let in_row = |&cell: &usize| self.job.cells[cell].rows().contains(&row);
        self.cells().filter(in_row).collect()
    }

    fn site(&self, cell: usize) -> i32 {
        self.poses[cell].site.into()
    }

    fn end(&self, cell: usize) -> i32 {
        let layout = self.job.cells[cell].layout[usize::from(self.poses[cell].layout)];
        self.site(cell) + i32::from(layout.width)
    }

    fn left_of(&self, left: usize, right: usize) -> bool {
        self.site(left) < self.site(right)
    }

    /// Whether two cells stand next to each other in a row, the first on the left.
    fn neighbours(&self, row: &[usize], left: usize, right: usize) -> bool {
        let between = |&cell: &usize| self.left_of(left, cell) && self.left_of(cell, right);
        self.left_of(left, right) && !row.iter().any(between)
    }

    fn breaks(&self, rule: u32, cell: usize) -> bool {
        let (of_job, pose) = (&self.job.cells[cell], &self.poses[cell]);
        let rows = || of_job.rows().map(|row| self.row(row));
        match rule {
            1 if of_job.fixed => pose.layout != 0 || pose.mark != 0,
            1 => {
                let marked_well = pose.mark == 0 || pose.mark == 1 && of_job.mirrorable;
                pose.layout >= of_job.layouts || !marked_well
            }
            2 => self.end(cell) > self.job.sites.into(),
            3 if of_job.fixed => pose.site != of_job.given,
            3 => {
                let shift = self.site(cell) - i32::from(of_job.given);
                shift.abs() > self.job.displacement.into()
            }
            4 => rows().any(|row| row.iter().any(|&other| self.share_a_site(cell, other))),
            5 => rows().any(|row| self.beside_one_site(&row, cell)),
            6 => rows().any(|row| self.moved_too_far(&row, cell)),
            7 => self.tall_on_the_wrong_side(cell),
            _ => rows().any(|row| self.at_one_site_end(&row, cell)),
        }
    }

    fn share_a_site(&self, cell: usize, other: usize) -> bool {
        let apart = self.end(cell) <= self.site(other) || self.end(other) <= self.site(cell);
        cell != other && !apart
    }

    fn beside_one_site(&self, row: &[usize], cell: usize) -> bool {
        let one_apart = |left: usize, right: usize| {
            self.neighbours(row, left, right) && self.site(right) - self.end(left) == 1
        };
        row.iter()
            .any(|&other| one_apart(cell, other) || one_apart(other, cell))
    }

    fn moved_too_far(&self, row: &[usize], cell: usize) -> bool {
        let place = row.iter().filter(|&&other| self.left_of(other, cell));
        let file_place = row.iter().filter(|&&other| other < cell);
        place.count().abs_diff(file_place.count()) > self.job.reordering.into()
    }

    fn tall_on_the_wrong_side(&self, cell: usize) -> bool {
        let tall = |cell: usize| self.job.cells[cell].is_tall();
        let wrong = |other: usize| (other < cell) != self.left_of(other, cell);
        tall(cell)
            && self
                .cells()
                .any(|other| other != cell && tall(other) && wrong(other))
    }

    /// Whether the cell is the first of its row with one empty site before it, or the last with one
    /// behind it.
    fn at_one_site_end(&self, row: &[usize], cell: usize) -> bool {
        let first = !row.iter().any(|&other| self.left_of(other, cell));
        let last = !row.iter().any(|&other| self.left_of(cell, other));
        let behind = i32::from(self.job.sites) - self.end(cell);
        first && self.site(cell) == 1 || last && behind == 1
    }

    fn first_broken(&self) -> Option<Broken> {
        (1..=8).find_map(|rule| {
            let breaks = |&cell: &usize| self.breaks(rule, cell);
            let cells: Cells = self.cells().filter(breaks).collect();
            (!cells.is_empty()).then_some(Broken { rule, cells })
        })
    }
}

/// Holds the two against each other, and says which rule is broken first, or 0.
fn compare(job: &Job, poses: &[Pose]) -> usize {
    let expected = Placed { job, poses }.first_broken();
    assert_eq!(verdict(job, poses).err(), expected, "{job:?} {poses:?}");
    expected.map_or(0, |broken| broken.rule as usize)
}

#[test]
fn agree() {
    let mut random = Random::new(21);
    let mut seen = [0; 9];
    for count in 0..30_000 {
        let (job, mut placement) = placements::job_with_legal_placement(&mut random);
        seen[compare(&job, &placement)] += 1;
        placements::break_rule(&mut random, 1 + count % 8, &job, &mut placement);
        seen[compare(&job, &placement)] += 1;
        placements::wander(&mut random, &job, &mut placement);
        seen[compare(&job, &placement)] += 1;
        let job = jobs::job_of_any_size(&mut random);
        seen[compare(&job, &placements::wild(&mut random, &job))] += 1;
    }
    assert!(seen.iter().all(|&seen| seen > 100), "{seen:?}");
}

/// Cells that stand as a fixed one must, or break rule 1 or 3 as only a fixed one does.
#[test]
fn agree_on_fixed_cells() {
    let mut random = Random::new(23);
    let mut seen = [0; 9];
    let mut by_fixed = [0; 9];
    for count in 0..40_000 {
        let (job, mut placement) = placements::job_with_fixed_cells(&mut random);
        assert_eq!(compare(&job, &placement), 0, "{job:?}");
        match count % 4 {
            0 => placements::break_rule(&mut random, 1, &job, &mut placement),
            1 => placements::break_rule(&mut random, 3, &job, &mut placement),
            _ => placements::wander(&mut random, &job, &mut placement),
        }
        let rule = compare(&job, &placement);
        let mut freed = job.clone();
        freed.cells.iter_mut().for_each(|cell| cell.fixed = false);
        let by_fixed_cell = compare(&freed, &placement) != rule;
        seen[rule] += 1;
        by_fixed[rule] += usize::from(by_fixed_cell);
    }
    assert!(seen[0] > 3_000 && seen[4] > 200, "{seen:?}");
    assert!(by_fixed[1] > 3_000 && by_fixed[3] > 3_000, "{by_fixed:?}");
}

#[test]
fn agree_on_row_ends() {
    let mut random = Random::new(22);
    let mut seen = [0; 9];
    for _ in 0..20_000 {
        let (job, mut placement) = placements::job_with_row_ends(&mut random);
        seen[compare(&job, &placement)] += 1;
        placements::wander(&mut random, &job, &mut placement);
        seen[compare(&job, &placement)] += 1;
    }
    assert!(seen[0] > 5_000 && seen[8] > 10_000, "{seen:?}");
}
