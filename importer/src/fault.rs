//! Fault line: the line that Score reports, as a part of one of its two texts.

use crate::calls;

/// The faulty line, with its line feed if it has one, as that very part of the job text or of the
/// placement text. A missing line and no fault give the empty part at the placement's end, a
/// missing first job line the empty job text.
///
/// ```
/// let job = b"J,1,20,1,1,100,1,100,50\nC,0,2,1,1,4,3,3,2,16\n";
/// assert_eq!(importer::fault_line(job, b""), b"C,0,2,1,1,4,3,3,2,16\n");
/// ```
pub fn fault_line<'texts>(job: &'texts [u8], placement: &'texts [u8]) -> &'texts [u8] {
    let mut part = [0; 3];
    calls::fault(job, placement, &mut part);
    let [which, start, length] = part.map(|number| usize::try_from(number).unwrap_or(usize::MAX));
    let text = if which == 0 { job } else { placement };
    text.get(start..start.saturating_add(length))
        .unwrap_or_default()
}

/// The faulty line as the refiner copies it; an empty output is lent first, for the line's length.
pub fn copied_fault_line(job: &[u8], placement: &[u8]) -> Vec<u8> {
    let mut part = [0; 3];
    calls::fault_line(job, placement, &mut [], &mut part);
    let [_, _, length] = part;
    let mut line = vec![0; usize::try_from(length).unwrap_or_default()];
    calls::fault_line(job, placement, &mut line, &mut part);
    line
}
