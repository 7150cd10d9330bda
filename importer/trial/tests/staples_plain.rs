//! The plain search for staples (A10): counts by hand, and small jobs against trying everything.

use std::thread;
use trial::generate::{staples as generate, Random};
use trial::plain::job::Job;
use trial::plain::placement::{Placement, Pose};
use trial::plain::reader::read_job;
use trial::plain::scorer::verdict;
use trial::plain::staples::{is_plain, is_stapleable, most, staples};
use trial::plain::staples_brute::most_by_trying_all;

/// How many jobs each seed gives.
const JOBS: usize = 10_000;

/// A job of two rows with so many sites, this D and R 2, from cell lines up to the width of layout 0.
fn job(sites: u16, displacement: u16, cells: &[&str]) -> Job {
    let header = format!("J,2,{sites},{displacement},2,1,1,1,1\n");
    let lines = cells.iter().map(|cell| format!("{cell},1,1,1,1\n"));
    let text = header + &lines.collect::<String>();
    let job = read_job(text.as_bytes()).expect("the job is in form");
    assert!(is_stapleable(&job), "{text}");
    job
}

/// Each cell at a site, in layout 0, unmirrored.
fn at(sites: &[u16]) -> Placement {
    let pose = |&site: &u16| Pose {
        site,
        ..Pose::default()
    };
    sites.iter().map(pose).collect()
}

/// The most staples by the search, whose placement must have them and be of the kind.
fn found(job: &Job) -> Option<usize> {
    let (placement, count) = most(job)?;
    let text = || job.text().escape_ascii().to_string();
    assert!(is_plain(job, &placement), "{placement:?} of\n{}", text());
    assert_eq!(staples(job, &placement), count, "{}", text());
    Some(count)
}

/// What the search and trying everything must both find.
fn check(job: &Job, expected: Option<usize>) {
    let text = || job.text().escape_ascii().to_string();
    assert_eq!(most_by_trying_all(job), expected, "{}", text());
    assert_eq!(found(job), expected, "{}", text());
}

#[test]
fn of_placements_by_hand() {
    // Sites 0 to 3 and 2 to 7 are covered, of 12.
    let beside = job(12, 7, &["C,0,0,0,1,4", "C,1,2,0,1,6"]);
    assert_eq!(staples(&beside, &at(&[0, 2])), 4);
    // Sites 2 to 7 alone: the narrow cell is beside the wide one.
    assert_eq!(staples(&beside, &at(&[3, 2])), 6);
    assert_eq!(staples(&beside, &at(&[2, 2])), 6);
    // They touch over two rows, or are apart: all ten sites of both are covered.
    assert_eq!(staples(&beside, &at(&[0, 4])), 2);
    assert_eq!(staples(&beside, &at(&[0, 6])), 2);
}

#[test]
fn without_cells_each_site_has_one() {
    for sites in [1, 2, 3, 1024] {
        check(&job(sites, 7, &[]), Some(sites.into()));
    }
}

#[test]
fn of_one_site() {
    // The other row is empty, and free of rule 8.
    check(&job(1, 0, &["C,0,0,0,1,1"]), Some(0));
    check(&job(1, 0, &["C,1,0,0,1,1"]), Some(0));
    check(&job(1, 0, &["C,0,0,0,1,1", "C,1,0,0,1,1"]), Some(0));
    check(&job(1, 0, &["C,0,0,0,1,2"]), None);
    check(&job(1, 7, &["C,0,0,0,1,1", "C,0,0,0,1,1"]), None);
}

#[test]
fn with_an_empty_row() {
    for row in [0, 1] {
        let one = format!("C,{row},3,0,1,4");
        // 10 less 4, wherever the cell stands.
        check(&job(10, 0, &[&one]), Some(6));
        check(&job(10, 7, &[&one]), Some(6));
        // 10 less 4 less 2.
        let two = format!("C,{row},7,0,1,2");
        check(&job(10, 1, &[&one, &two]), Some(4));
    }
}

/// Two cells of four sites, one in each row, given at 0 and 6 of 12.
#[test]
fn of_cells_that_come_to_stand_beside_each_other() {
    let with = |limit: u16, [first, second]: [&str; 2]| {
        let first = format!("{first},0,0,0,1,4");
        let second = format!("{second},1,6,0,1,4");
        job(12, limit, &[&first, &second])
    };
    // Eight sites are covered. With D 1 the first cannot stand at 1, nor the second at 7.
    check(&with(0, ["C", "C"]), Some(4));
    check(&with(1, ["C", "C"]), Some(4));
    // At 2 and 4 they share sites 4 and 5, at 3 all.
    check(&with(2, ["C", "C"]), Some(6));
    check(&with(3, ["C", "C"]), Some(8));
    check(&with(7, ["C", "C"]), Some(8));
    // Where the second stays at 6, the first comes to 2, 3, and at last 6.
    check(&with(2, ["C", "F"]), Some(4));
    check(&with(3, ["C", "F"]), Some(5));
    check(&with(7, ["C", "F"]), Some(8));
    check(&with(7, ["F", "F"]), Some(4));
}

/// The cell in the middle of row 0 can stand beside either of row 1's, not both; that of row 1's which
/// shares more sites with it is the second.
#[test]
fn of_a_cell_between_two() {
    let cells = ["C,0,6,0,1,4", "F,1,2,0,1,3", "F,1,10,0,1,6"];
    // Row 1 covers nine of 20. The cell covers sites 6 to 9, which are not among them; with D 2, at 4
    // or 8, one or two that are; with D 4, at 10, all.
    check(&job(20, 0, &cells), Some(7));
    check(&job(20, 2, &cells), Some(9));
    check(&job(20, 4, &cells), Some(11));
}

/// A cell beside a wider one covers nothing anew, in either row.
#[test]
fn of_a_narrow_cell_beside_a_wide_one() {
    check(&job(12, 0, &["C,0,4,0,1,2", "C,1,2,0,1,6"]), Some(6));
    check(&job(12, 0, &["C,1,4,0,1,2", "C,0,2,0,1,6"]), Some(6));
}

/// In row 0 the wide cell would stand beside row 1's first and the narrow one beside its second, were
/// they exchanged. In file order the wide one shares two sites at most.
#[test]
fn in_file_order_alone() {
    let cells = ["C,0,2,0,1,2", "C,0,2,0,1,4", "F,1,0,0,1,4", "F,1,8,0,1,2"];
    let job = job(12, 7, &cells);
    let exchanged = at(&[8, 0, 0, 8]);
    assert!(verdict(&job, &exchanged).is_ok(), "R is 2");
    assert_eq!(staples(&job, &exchanged), 6);
    check(&job, Some(4));
}

#[test]
fn rule_8_leaves_none() {
    // Sites 1 to 3 of 5: one empty site at either end.
    for lead in ["C", "F"] {
        check(&job(5, 0, &[&format!("{lead},0,1,0,1,3")]), None);
    }
    // At 0 or 2 there are two empty sites at one end.
    check(&job(5, 1, &["C,0,1,0,1,3"]), Some(2));
    check(&job(5, 1, &["F,0,1,0,1,3"]), None);
    // Of 4 sites one is left at an end, wherever the cell stands.
    check(&job(4, 7, &["C,1,0,0,1,3"]), None);
    check(&job(3, 7, &["C,1,0,0,1,3"]), Some(0));
    // The other row's cell does not mend it.
    check(&job(4, 7, &["C,0,0,0,1,4", "C,1,0,0,1,3"]), None);
}

#[test]
fn rule_5_leaves_none() {
    let cells = ["C,0,0,0,1,2", "C,0,3,0,1,2"];
    check(&job(8, 0, &cells), None);
    // The first stays at 0, as rule 8 forbids 1; the second stands at 2 or 4.
    check(&job(8, 1, &cells), Some(4));
    check(&job(8, 1, &["C,1,0,0,1,2", "C,1,3,0,1,2"]), Some(4));
}

/// Layout 1, a mirrored cell and another order are legal here and not of the kind.
#[test]
fn what_is_not_of_the_kind() {
    let text = "J,2,12,7,1,1,1,1,1\nC,0,2,1,2,4,1,1,1,1,1,1,1,1,1\nC,0,2,0,1,4,1,1,1,1\n";
    let job = read_job(text.as_bytes()).expect("the job is in form");
    let judge = |first: [u16; 3], second: u16| {
        let [site, layout, mark] = first;
        let mut placement = at(&[site, second]);
        placement[0] = Pose { site, layout, mark };
        let broken = verdict(&job, &placement).err();
        (
            broken.map_or(0, |broken| broken.rule),
            is_plain(&job, &placement),
        )
    };
    assert_eq!(judge([2, 0, 0], 8), (0, true));
    assert_eq!(judge([2, 1, 0], 8), (0, false));
    assert_eq!(judge([2, 0, 1], 8), (0, false));
    assert_eq!(judge([8, 0, 0], 2), (0, false));
    // Nor is what breaks a rule.
    assert_eq!(judge([2, 2, 0], 8), (1, false));
    assert_eq!(judge([2, 0, 0], 9), (2, false));
    assert_eq!(judge([2, 0, 0], 5), (4, false));
    assert_eq!(judge([2, 0, 0], 7), (5, false));
    assert_eq!(judge([1, 0, 0], 8), (8, false));
    assert_eq!(judge([4, 0, 0], 8), (0, true));
    assert!(!is_plain(&job, &at(&[2])), "a pose is missing");
    // Layout 1 would cover one site in place of four.
    check(&job, Some(4));
}

#[test]
fn one_row_or_a_tall_cell() {
    let asked = |text: &str| read_job(text.as_bytes()).map(|job| is_stapleable(&job));
    let tall = "C,2,0,0,1,4,1,1,1,1,1,1,1,1\n";
    assert_eq!(asked("J,1,9,0,0,1,1,1,1\n"), Ok(false));
    assert_eq!(asked("J,2,9,0,0,1,1,1,1\n"), Ok(true));
    assert_eq!(asked(&format!("J,2,9,0,0,1,1,1,1\n{tall}")), Ok(false));
}

/// What was seen in the jobs of a seed.
#[derive(Debug, Default)]
struct Seen {
    /// Jobs with a placement of the kind, and jobs without.
    placed: usize,
    none: usize,
    /// Jobs with fixed cells, and those of them that would have more staples, or some, without.
    fixed: usize,
    fewer_by_fixed: usize,
    /// Jobs without cells, with cells in one row alone, and with one site.
    bare: usize,
    one_row: usize,
    one_site: usize,
    /// Jobs with a cell over 16 sites wide that are placed.
    wide: usize,
    /// Jobs in whose placement cells of both rows share sites.
    shared: usize,
    /// Jobs by D.
    by_limit: [usize; 8],
}

impl Seen {
    /// Counts a job with its most staples.
    fn count(&mut self, job: &Job, most: Option<usize>) {
        let widths = || job.cells.iter().map(|cell| cell.layout[0].width);
        let in_row = |row| job.cells.iter().any(|cell| cell.row == row);
        let apart = usize::from(job.sites).checked_sub(widths().map(usize::from).sum());
        let fixed = job.fixed_cells() > 0;
        self.placed += usize::from(most.is_some());
        self.none += usize::from(most.is_none());
        self.fixed += usize::from(fixed);
        self.fewer_by_fixed += usize::from(fixed && if_free(job) > most);
        self.bare += usize::from(job.cells.is_empty());
        self.one_row += usize::from(in_row(0) != in_row(1));
        self.one_site += usize::from(job.sites == 1);
        self.wide += usize::from(most.is_some() && widths().any(|width| width > 16));
        self.shared += usize::from(most > apart);
        self.by_limit[usize::from(job.displacement)] += 1;
    }
}

/// The most staples of the job with no cell fixed.
fn if_free(job: &Job) -> Option<usize> {
    let mut free = job.clone();
    free.cells.iter_mut().for_each(|cell| cell.fixed = false);
    found(&free)
}

/// Compares the jobs of a seed.
fn compare(seed: u64) -> Seen {
    let mut random = Random::new(seed);
    let mut seen = Seen::default();
    for _ in 0..JOBS {
        let job = generate::small_job(&mut random);
        let text = job.text();
        let read = read_job(&text).map(|job| is_stapleable(&job));
        assert_eq!(read, Ok(true), "{}", text.escape_ascii());
        let most = most_by_trying_all(&job);
        assert_eq!(found(&job), most, "{}", text.escape_ascii());
        seen.count(&job, most);
    }
    seen
}

/// Of the 10,000 jobs of each seed more than 6,000 have a placement of the kind, and more than 3,000
/// none.
#[test]
fn small_jobs_have_the_most() {
    thread::scope(|scope| {
        let runs = [101, 102, 103, 104].map(|seed| scope.spawn(move || compare(seed)));
        for run in runs {
            let seen = run.join().expect("the jobs of each seed agree");
            assert!(seen.placed > 6_000 && seen.none > 3_000, "{seen:?}");
            let many = [seen.fixed, seen.one_row, seen.shared];
            assert!(many.iter().all(|&jobs| jobs > JOBS / 5), "{seen:?}");
            let some = [seen.fewer_by_fixed, seen.bare, seen.one_site, seen.wide];
            assert!(some.iter().all(|&jobs| jobs > JOBS / 20), "{seen:?}");
            assert!(
                seen.by_limit[..4].iter().all(|&jobs| jobs > JOBS / 10),
                "{seen:?}"
            );
            assert!(seen.by_limit[7] > JOBS / 20, "{seen:?}");
        }
    });
}
