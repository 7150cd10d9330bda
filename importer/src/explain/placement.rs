//! A placement text: one line `site,layout,mirror` for each cell.

use super::field::Field;
use super::form::{count, Form};
use super::line::{lines, Line};
use super::reason::{Reason, PLACEMENT};
use crate::Refused;

const POSE: Form = Form {
    lead: None,
    fields_of: |_| ["site", "layout", "mirror"].map(any_number).into(),
};

/// A number's form is all that a placement's fields must have.
fn any_number(name: &'static str) -> Field {
    Field::new(name, 0, 9999)
}

/// How a text says that one cell stands, in any numbers of its form. A [`Pose`](crate::Pose) is
/// mirrored or not; a text may say a mark over 1, and Score then names the rule that it breaks.
#[derive(Clone, Copy, Debug, PartialEq, Eq)]
pub struct RawPose {
    /// Its leftmost site.
    pub site: u32,
    /// The number of its layout.
    pub layout: u32,
    /// 1 if it is mirrored, 0 if not; a text may say any number.
    pub mark: u32,
}

/// The poses of so many cells, or what is wrong with the earliest line that is bad, missing or
/// surplus.
pub fn read(text: &[u8], cells: usize) -> Result<Vec<RawPose>, Reason> {
    let mut poses = Vec::new();
    for line in lines(text) {
        let pose = if poses.len() < cells {
            read_pose(&line)
        } else {
            Err(surplus(&line, cells))
        };
        poses.push(pose.map_err(|words| line.refused(PLACEMENT, words))?);
    }
    if poses.len() < cells {
        return Err(missing(poses.len(), cells));
    }
    Ok(poses)
}

fn read_pose(line: &Line) -> Result<RawPose, String> {
    let numbers = POSE.numbers(line)?;
    match numbers.values[..] {
        [site, layout, mark] => Ok(RawPose { site, layout, mark }),
        _ => {
            let found = count(numbers.fields, "field");
            Err(format!(
                "{found}, a placement line has 3: site,layout,mirror"
            ))
        }
    }
}

fn surplus(line: &Line, cells: usize) -> String {
    let which = match line.body() {
        [] => "an empty line",
        _ => "a line",
    };
    let cells = count(cells, "cell");
    format!("{which} too many: the job has {cells}")
}

fn missing(found: usize, cells: usize) -> Reason {
    let line = u32::try_from(found + 1).unwrap_or(u32::MAX);
    let (found, cells) = (count(found, "line"), count(cells, "cell"));
    Reason {
        answer: Refused {
            number: PLACEMENT,
            line,
        },
        words: format!("the line is missing: the placement has {found}, the job {cells}"),
    }
}
