//! The eight rules, and the first one that a placement breaks.

use super::cells::Cells;
use super::gap::is_forbidden;
use super::job::{Cell, Job};
use super::order::{Member, Order};
use super::placement::Pose;

/// The first broken rule and all cells that break it.
#[derive(Clone, Copy, Debug, PartialEq, Eq)]
pub struct Broken {
    pub rule: u32,
    pub cells: Cells,
}

/// The rows of a placement that keeps rules 1 to 8, or what it breaks.
pub fn legal_rows(job: &Job, placement: &[Pose]) -> Result<[Order; 2], Broken> {
    let alone = |breaks| alone(job, placement, breaks);
    keep(1, alone(choice_not_offered))?;
    keep(2, alone(outside_row))?;
    keep(3, alone(shifted_too_far))?;
    let rows = [0, 1].map(|row| Order::of(job, placement, row));
    let [first, second] = &rows;
    let in_rows = |breaks: fn(&Job, &Order) -> Cells| breaks(job, first) | breaks(job, second);
    keep(4, in_rows(overlap))?;
    keep(5, in_rows(one_site_gap))?;
    keep(6, in_rows(order_moved_too_far))?;
    keep(7, tall_order_changed(job, placement))?;
    keep(8, in_rows(one_site_row_end))?;
    Ok(rows)
}

fn keep(rule: u32, cells: Cells) -> Result<(), Broken> {
    match cells.is_empty() {
        true => Ok(()),
        false => Err(Broken { rule, cells }),
    }
}

/// The cells whose own pose breaks a rule.
fn alone(job: &Job, placement: &[Pose], breaks: fn(&Job, &Cell, &Pose) -> bool) -> Cells {
    let cells = job.cells.iter().zip(placement).enumerate();
    let broken = cells.filter(|(_, (cell, pose))| breaks(job, cell, pose));
    broken.map(|(at, _)| at).collect()
}

/// Where a row's member stands in the file.
fn at(member: &Member) -> usize {
    member.cell.into()
}

/// Rule 1.
fn choice_not_offered(_: &Job, cell: &Cell, pose: &Pose) -> bool {
    pose.layout >= cell.offered_layouts() || pose.mark > cell.highest_mark()
}

/// Rule 2.
fn outside_row(job: &Job, cell: &Cell, pose: &Pose) -> bool {
    pose.end(cell) > job.sites
}

/// Rule 3.
fn shifted_too_far(job: &Job, cell: &Cell, pose: &Pose) -> bool {
    pose.site.abs_diff(cell.given) > job.displacement_of(cell)
}

/// Rule 4. From left to right, a cell overlaps one before it if it begins below the furthest end
/// of those, and one after it if the next begins below its own end.
fn overlap(_: &Job, row: &Order) -> Cells {
    let members = row.members();
    let mut furthest = 0;
    let overlaps = members.iter().enumerate().filter(|(at, member)| {
        let next = members.get(at + 1);
        let before = member.site < furthest;
        furthest = furthest.max(member.end);
        before || next.is_some_and(|next| next.site < member.end)
    });
    overlaps.map(|(_, member)| at(member)).collect()
}

/// Rule 5. Both neighbours break it.
fn one_site_gap(_: &Job, row: &Order) -> Cells {
    let neighbours = row.neighbours();
    let gaps = neighbours
        .filter(|(left, right)| is_forbidden(i32::from(right.site) - i32::from(left.end)));
    gaps.flat_map(|(left, right)| [at(&left), at(&right)])
        .collect()
}

/// Rule 6.
fn order_moved_too_far(job: &Job, row: &Order) -> Cells {
    let places = row.members().iter().zip(0..);
    let moved = places
        .filter(|(member, place)| u16::from(member.file_place.abs_diff(*place)) > job.reordering);
    moved.map(|(member, _)| at(member)).collect()
}

/// Rule 7. A cell breaks it by an earlier tall cell on its right, and by a later one on its left.
fn tall_order_changed(job: &Job, placement: &[Pose]) -> Cells {
    let tall = || (0..placement.len()).filter(|&at| job.cells[at].is_tall());
    let (mut rightmost, mut leftmost) = (0, u16::MAX);
    let behind_earlier = tall().filter(|&at| {
        let site = placement[at].site;
        rightmost = rightmost.max(site);
        site < rightmost
    });
    let behind_earlier: Cells = behind_earlier.collect();
    let before_later = tall().rev().filter(|&at| {
        let site = placement[at].site;
        leftmost = leftmost.min(site);
        site > leftmost
    });
    behind_earlier | before_later.collect()
}

/// Rule 8. The row's first cell breaks it by one empty site before it, the last by one behind it. A
/// row without cells has neither.
fn one_site_row_end(job: &Job, row: &Order) -> Cells {
    let members = row.members();
    let before = |first: &&Member| i32::from(first.site);
    let behind = |last: &&Member| i32::from(job.sites - last.end);
    let first = members.first().filter(|first| is_forbidden(before(first)));
    let last = members.last().filter(|last| is_forbidden(behind(last)));
    first.into_iter().chain(last).map(at).collect()
}
