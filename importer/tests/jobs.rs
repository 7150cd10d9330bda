//! Jobs as values: their texts by hand, and that the refiner judges what they are told.

use importer::job::{Cell, Header, Heights, Job, Layout, Stand, Weights};
use importer::{read, RefusalKind};

const HEADER: Header = Header {
    rows: 2,
    sites: 100,
    displacement: 7,
    reordering: 1,
    weights: Weights {
        step: 10,
        shift: 20,
        mirror: 30,
        swap: 40,
        filled: None,
    },
};

fn single(row: u32, given: u32) -> Cell {
    Cell::single(row, given, [Layout::single(4, [1, 2, 3, 4])])
}

fn tall(given: u32) -> Cell {
    Cell::tall(given, [Layout::tall(5, [1, 2, 3, 4], [5, 6, 7, 8])])
}

/// The refiner's answer to a job: how many cells, or the kind and the line of its refusal.
fn judged(job: &Job) -> Result<u32, (RefusalKind, u32)> {
    let read = read(&job.text()).map(|read| read.cells);
    read.map_err(|refused| (refused.kind(), refused.line))
}

#[test]
fn each_field_stands_in_its_place() {
    let two = Cell::single(
        1,
        12,
        [
            Layout::single(4, [1, 2, 3, 4]),
            Layout::single(6, [5, 6, 7, 8]),
        ],
    );
    let two_tall = Cell::tall(
        30,
        [
            Layout::tall(5, [1, 2, 3, 4], [5, 6, 7, 8]),
            Layout::tall(9, [9, 10, 11, 12], [13, 14, 15, 1]),
        ],
    );
    let mut job = Job::new(HEADER).with(single(0, 2).mirrorable());
    job.extend([two.mirrorable(), tall(20), two_tall]);
    let text = "J,2,100,7,1,10,20,30,40\n\
                C,0,2,1,1,4,1,2,3,4\n\
                C,1,12,1,2,4,1,2,3,4,6,5,6,7,8\n\
                C,2,20,0,1,5,1,2,3,4,5,6,7,8\n\
                C,2,30,0,2,5,1,2,3,4,5,6,7,8,9,9,10,11,12,13,14,15,1\n";
    assert_eq!(job.to_string(), text);
    assert_eq!(job.text(), text.as_bytes());
    assert_eq!(judged(&job), Ok(4));
}

/// A fixed cell's line has the same fields behind another lead, and counts as any cell.
#[test]
fn a_fixed_cell_has_its_own_lead() {
    let rich = Cell::single(1, 12, [Layout::single(4, [1, 2, 3, 4]); 2]);
    let cells = [
        single(0, 2).fixed(),
        rich.fixed().mirrorable(),
        tall(20).fixed(),
        single(0, 40),
    ];
    let mut job = Job::new(HEADER);
    job.extend(cells);
    let text = "J,2,100,7,1,10,20,30,40\n\
                F,0,2,0,1,4,1,2,3,4\n\
                F,1,12,1,2,4,1,2,3,4,4,1,2,3,4\n\
                F,2,20,0,1,5,1,2,3,4,5,6,7,8\n\
                C,0,40,0,1,4,1,2,3,4\n";
    assert_eq!(job.to_string(), text);
    assert_eq!(judged(&job), Ok(4));
    job.cells.iter_mut().for_each(|cell| cell.fixed = false);
    assert_eq!(job.to_string(), text.replace('F', "C"));
}

#[test]
fn a_job_without_cells_is_its_first_line() {
    assert_eq!(Job::new(HEADER).to_string(), "J,2,100,7,1,10,20,30,40\n");
    assert_eq!(judged(&Job::new(HEADER)), Ok(0));
}

/// A weight of filled steps has its own lead and stands behind the others.
#[test]
fn a_weight_of_filled_steps_changes_the_lead() {
    let weighing = |filled| {
        let weights = Weights {
            filled: Some(filled),
            ..HEADER.weights
        };
        Job::new(Header { weights, ..HEADER }).with(single(0, 2))
    };
    let text = "K,2,100,7,1,10,20,30,40,50\nC,0,2,0,1,4,1,2,3,4\n";
    assert_eq!(weighing(50).to_string(), text);
    assert_eq!(judged(&weighing(0)), Ok(1));
    assert_eq!(judged(&weighing(1000)), Ok(1));
    assert_eq!(judged(&weighing(1001)), Err((RefusalKind::Range, 1)));
    assert_eq!(judged(&weighing(10_000)), Err((RefusalKind::Form, 1)));
}

#[test]
fn heights_have_names() {
    let heights = Heights {
        left_p: 1,
        left_n: 2,
        right_p: 3,
        right_n: 4,
    };
    assert_eq!(Heights::from([1, 2, 3, 4]), heights);
    let cell = Cell::single(0, 2, vec![Layout::single(4, heights)]);
    assert_eq!(cell, single(0, 2));
}

#[test]
fn the_refiner_judges_what_the_job_is_told() {
    let with = |cells: &[Cell]| {
        let mut job = Job::new(HEADER);
        job.extend(cells.iter().cloned());
        judged(&job)
    };
    assert_eq!(with(&[single(3, 2)]), Err((RefusalKind::Range, 2)));
    assert_eq!(with(&[single(0, 1024)]), Err((RefusalKind::Range, 2)));
    assert_eq!(with(&[single(0, 10_000)]), Err((RefusalKind::Form, 2)));
    let falling = [single(0, 9), single(1, 3), single(0, 8)];
    assert_eq!(with(&falling), Err((RefusalKind::Order, 4)));
    assert_eq!(with(&vec![single(0, 2); 65]), Err((RefusalKind::Count, 66)));
    assert_eq!(with(&vec![tall(2); 25]), Err((RefusalKind::Count, 26)));
    let fixed = [vec![tall(2); 20], vec![tall(2).fixed(); 5]].concat();
    assert_eq!(with(&fixed), Err((RefusalKind::Count, 26)));
    let none = Cell::tall(2, []);
    assert_eq!(with(&[none]), Err((RefusalKind::Range, 2)));
    let three = Cell::single(0, 2, [Layout::single(4, [1, 2, 3, 4]); 3]);
    assert_eq!(with(&[three]), Err((RefusalKind::Range, 2)));
    // Row 2 with the heights of one row: too few fields for a tall cell.
    assert_eq!(with(&[single(2, 2)]), Err((RefusalKind::Form, 2)));
    let wide = Header {
        sites: 2000,
        ..HEADER
    };
    assert_eq!(judged(&Job::new(wide)), Err((RefusalKind::Range, 1)));
    assert_eq!(judged(&Job::default()), Err((RefusalKind::Range, 1)));
}

#[test]
fn a_cell_can_be_changed_in_place() {
    let mut job = Job::new(HEADER).with(single(0, 2)).with(tall(20));
    for cell in &mut job.cells {
        cell.given += 1;
        cell.mirrorable = matches!(cell.stand, Stand::Tall { .. });
    }
    assert_eq!(job.cells, [single(0, 3), tall(21).mirrorable()]);
}
