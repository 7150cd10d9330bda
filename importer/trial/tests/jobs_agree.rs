//! Jobs that the host writes from values against those that the plain refiner writes and reads.

use importer::job::{Cell, Header, Heights, Job, Layout, Weights};
use trial::generate::{jobs, Random};
use trial::plain;
use trial::plain::reader::read_job;

/// The host's job of a plain one.
fn of_plain(job: &plain::job::Job) -> Job {
    let weights = Weights {
        step: job.weights.step.into(),
        shift: job.weights.shift.into(),
        mirror: job.weights.mirror.into(),
        swap: job.weights.swap.into(),
        filled: job.weights.filled.map(u32::from),
    };
    let mut written = Job::new(Header {
        rows: job.rows.into(),
        sites: job.sites.into(),
        displacement: job.displacement.into(),
        reordering: job.reordering.into(),
        weights,
    });
    written.extend(job.cells.iter().map(cell_of_plain));
    written
}

fn cell_of_plain(cell: &plain::job::Cell) -> Cell {
    let (row, given) = (cell.row.into(), cell.given.into());
    let layouts = cell.layout.iter().take(cell.layouts.into());
    let written = if cell.is_tall() {
        let layout = |layout: &plain::job::Layout| {
            let [row_0, row_1] = layout.heights.map(heights);
            Layout::tall(layout.width.into(), row_0, row_1)
        };
        Cell::tall(given, layouts.map(layout).collect::<Vec<_>>())
    } else {
        let layout = |layout: &plain::job::Layout| {
            Layout::single(layout.width.into(), heights(layout.heights[0]))
        };
        Cell::single(row, given, layouts.map(layout).collect::<Vec<_>>())
    };
    let written = match cell.fixed {
        true => written.fixed(),
        false => written,
    };
    match cell.mirrorable {
        true => written.mirrorable(),
        false => written,
    }
}

fn heights(heights: [u16; 4]) -> Heights {
    heights.map(u32::from).into()
}

#[test]
fn on_jobs_of_every_size() {
    let mut random = Random::new(65);
    let (mut cells, mut fixed, mut filled) = (0, 0, 0);
    for _ in 0..20_000 {
        let job = jobs::job_of_any_size(&mut random);
        let text = of_plain(&job).text();
        assert_eq!(text, job.text(), "{}", text.escape_ascii());
        assert_eq!(read_job(&text).as_ref(), Ok(&job));
        let read = importer::read(&text).map(|read| read.cells as usize);
        assert_eq!(read, Ok(job.cells.len()));
        cells += job.cells.len();
        fixed += job.fixed_cells();
        filled += usize::from(job.weights.filled.is_some());
    }
    assert!(cells > 100_000 && fixed > 20_000, "{cells} {fixed}");
    assert!(filled > 4_000, "{filled} weigh filled steps");
}
