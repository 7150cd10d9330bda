//! A placement as a pose for each cell, beside its text.
//!
//! [`parse`] and [`text`] lead from one to the other and back without loss. They know the form of
//! a line and nothing of a job: whether a placement is legal, or a number too large for its text,
//! [`score`](crate::score) says.
//!
//! ```
//! use importer::{placement, refine, score};
//!
//! # fn main() -> Result<(), Box<dyn std::error::Error>> {
//! let job = b"J,1,20,1,1,100,1,100,50\nC,0,2,1,1,4,3,3,2,2\nC,0,6,0,1,4,3,3,2,2\n";
//! let refined = refine(job)?;
//! let mut poses = refined.poses()?;
//! assert_eq!(placement::text(&poses), refined.text);
//!
//! // Both cells one site to the left.
//! for pose in &mut poses {
//!     pose.site -= 1;
//! }
//! let verdict = score(job, &placement::text(&poses))?;
//! assert!(verdict.to_string().starts_with("cell 1 breaks rule 8"));
//! # Ok(())
//! # }
//! ```

use std::fmt;
use std::str::FromStr;

/// How one cell stands.
#[derive(Clone, Copy, Debug, Default, PartialEq, Eq, Hash)]
pub struct Pose {
    /// Its left site, from 0.
    pub site: u32,
    /// 0 for its first layout, 1 for its second.
    pub layout: u32,
    /// Whether it is mirrored.
    pub mirrored: bool,
}

/// A line is not `site,layout,mirror` with plain numbers, of which the last is 0 or 1.
#[derive(Clone, Copy, Debug, PartialEq, Eq)]
pub struct PoseError {
    /// The line, counted from 1.
    pub line: usize,
}

/// The poses that a placement text says. Each line has to end with a line feed, and numbers have
/// no sign and no leading zero, so that [`text`] gives the same bytes again.
pub fn parse(placement: &[u8]) -> Result<Vec<Pose>, PoseError> {
    let lines = placement.split_inclusive(|&byte| byte == b'\n');
    let pose = |(bytes, line): (&[u8], usize)| {
        let bytes = bytes.strip_suffix(b"\n");
        bytes.and_then(pose_of).ok_or(PoseError { line })
    };
    lines.zip(1..).map(pose).collect()
}

/// The text of a placement: a line for each pose.
pub fn text(poses: &[Pose]) -> Vec<u8> {
    let line = |pose: &Pose| format!("{pose}\n");
    poses.iter().map(line).collect::<String>().into_bytes()
}

/// The pose of a line without its line feed.
fn pose_of(line: &[u8]) -> Option<Pose> {
    let mut fields = line.split(|&byte| byte == b',').map(number);
    let mut next = || fields.next().flatten();
    let (site, layout, mark) = (next()?, next()?, next()?);
    let mirrored = match mark {
        0 => false,
        1 => true,
        _ => return None,
    };
    let pose = Pose {
        site,
        layout,
        mirrored,
    };
    fields.next().is_none().then_some(pose)
}

/// A field's number, if it is written as [`text`] writes it.
fn number(field: &[u8]) -> Option<u32> {
    let plain = match field {
        [b'0'] => true,
        [b'1'..=b'9', rest @ ..] => rest.iter().all(u8::is_ascii_digit),
        _ => false,
    };
    let digits = std::str::from_utf8(field).ok().filter(|_| plain)?;
    digits.parse().ok()
}

/// The pose as a line of a placement, without its line feed: `2,0,1`.
impl fmt::Display for Pose {
    fn fmt(&self, out: &mut fmt::Formatter<'_>) -> fmt::Result {
        let mark = u32::from(self.mirrored);
        write!(out, "{},{},{mark}", self.site, self.layout)
    }
}

/// The pose that a line says, without its line feed.
impl FromStr for Pose {
    type Err = PoseError;

    fn from_str(line: &str) -> Result<Pose, PoseError> {
        pose_of(line.as_bytes()).ok_or(PoseError { line: 1 })
    }
}

impl fmt::Display for PoseError {
    fn fmt(&self, out: &mut fmt::Formatter<'_>) -> fmt::Result {
        let line = self.line;
        write!(
            out,
            "line {line} is not `site,layout,mirror` with a mark of 0 or 1"
        )
    }
}

impl std::error::Error for PoseError {}
