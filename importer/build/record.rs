//! The record that `tools/kit` leaves beside the archive: which kit proved it.

/// The record's name.
pub const RECORD: &str = "librefiner.kit";

/// The kit that a record names, if the record is of the archive with this sum. Its first line is
/// the archive's as `sha256sum` prints it, its second what `rt version` says.
pub fn kit<'record>(record: &'record str, sum: &str) -> Option<&'record str> {
    let mut lines = record.lines();
    let of = lines.next()?.split_whitespace().next()?;
    let kit = lines.next()?.trim();
    let plain = kit.chars().all(|letter| !letter.is_control());
    (of == sum && plain && !kit.is_empty()).then_some(kit)
}
