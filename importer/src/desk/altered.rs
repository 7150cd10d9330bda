//! The text of a job that Read accepts, with a number or a lead altered, or cut short.

/// Where these stand in the first line, counted from the lead, which is 0.
pub const SITES: usize = 2;
pub const DISPLACEMENT: usize = 3;
pub const REORDERING: usize = 4;

/// What the line of a cell begins with that must not move, and of one that may.
const FIXED: u8 = b'F';
const FREE: u8 = b'C';

/// The fields of the first line, and what follows it.
fn parts(job: &[u8]) -> (Vec<&[u8]>, &[u8]) {
    let end = job.iter().position(|&byte| byte == b'\n');
    let (header, cells) = job.split_at(end.unwrap_or(job.len()));
    (header.split(|&byte| byte == b',').collect(), cells)
}

/// The number in a field of the first line of a job that Read accepts.
pub fn field(job: &[u8], place: usize) -> u32 {
    let (fields, _) = parts(job);
    let number = fields
        .get(place)
        .and_then(|field| std::str::from_utf8(field).ok());
    number
        .and_then(|number| number.parse().ok())
        .unwrap_or_default()
}

/// The job with another number in a field of its first line.
pub fn with_field(job: &[u8], place: usize, number: u32) -> Vec<u8> {
    let number = number.to_string();
    let (mut fields, cells) = parts(job);
    if let Some(field) = fields.get_mut(place) {
        *field = number.as_bytes();
    }
    [&fields.join(&b','), cells].concat()
}

/// The cells of a job that Read accepts whose lines are led by `F`, counted from 1.
pub fn fixed_cells(job: &[u8]) -> Vec<u32> {
    let lines = (0..).zip(job.split(|&byte| byte == b'\n'));
    let fixed = lines.filter(|(_, line)| line.first() == Some(&FIXED));
    fixed.map(|(cell, _)| cell).collect()
}

/// The job with a cell, counted from 1, that may move.
pub fn with_cell_freed(job: &[u8], cell: u32) -> Vec<u8> {
    let (before, mut job) = (first_cells(job, cell - 1).len(), job.to_vec());
    if let Some(lead) = job.get_mut(before) {
        *lead = FREE;
    }
    job
}

/// The job's first line and so many cell lines.
pub fn first_cells(job: &[u8], cells: u32) -> &[u8] {
    let lines = job.split_inclusive(|&byte| byte == b'\n');
    let length = lines.take(1 + cells as usize).map(<[u8]>::len).sum();
    &job[..length]
}

#[cfg(test)]
mod tests {
    use super::*;

    const JOB: &[u8] = b"J,1,20,1,0,100,1,100,50\nC,0,2,1,1,4,3,3,2,2\nC,0,6,0,1,4,3,3,2,2\n";

    #[test]
    fn a_field_of_the_first_line_alone_is_changed() {
        let changed = b"J,1,20,7,0,100,1,100,50\nC,0,2,1,1,4,3,3,2,2\nC,0,6,0,1,4,3,3,2,2\n";
        assert_eq!(with_field(JOB, DISPLACEMENT, 7), changed);
        let changed = with_field(&with_field(JOB, SITES, 1024), REORDERING, 1);
        assert!(changed.starts_with(b"J,1,1024,1,1,100,1,100,50\nC,0,2,1,1,"));
    }

    #[test]
    fn a_first_line_led_by_k_keeps_its_lead_and_its_weights() {
        let job = b"K,1,20,1,0,100,1,100,50,30\nC,0,2,1,1,4,3,3,2,2\n";
        let changed = with_field(job, DISPLACEMENT, 7);
        let changed = with_field(&with_field(&changed, SITES, 24), REORDERING, 2);
        let expected = b"K,1,24,7,2,100,1,100,50,30\nC,0,2,1,1,4,3,3,2,2\n";
        assert_eq!(changed, expected);
    }

    #[test]
    fn fields_of_the_first_line() {
        let places = [SITES, DISPLACEMENT, REORDERING];
        assert_eq!(places.map(|place| field(JOB, place)), [20, 1, 0]);
    }

    #[test]
    fn the_first_cells_of_a_job() {
        assert_eq!(first_cells(JOB, 0), b"J,1,20,1,0,100,1,100,50\n");
        assert!(JOB.starts_with(first_cells(JOB, 1)));
        assert_eq!(
            first_cells(JOB, 1).len(),
            JOB.len() - "C,0,6,0,1,4,3,3,2,2\n".len()
        );
        assert_eq!(first_cells(JOB, 2), JOB);
    }

    #[test]
    fn fixed_cells_are_found_and_freed() {
        let cell = |lead: &str| format!("{lead},0,2,0,1,2,1,1,1,1\n");
        let job = |leads: [&str; 3]| format!("J,1,9,1,0,1,1,1,1\n{}", leads.map(cell).concat());
        let fixed = job(["F", "C", "F"]).into_bytes();
        assert_eq!(fixed_cells(&fixed), [1, 3]);
        assert_eq!(with_cell_freed(&fixed, 1), job(["C", "C", "F"]).as_bytes());
        assert_eq!(with_cell_freed(&fixed, 3), job(["F", "C", "C"]).as_bytes());
        assert!(fixed_cells(JOB).is_empty());
    }
}
