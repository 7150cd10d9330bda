//! Poses of the host against the plain reader, on generated placements and damaged texts.

use importer::placement::{parse, text};
use importer::Pose;
use trial::generate::damage::Damage;
use trial::generate::{jobs, placements, Random};
use trial::plain;
use trial::plain::placement::{read_placement, text_of};

/// The largest number that a placement text may have.
const MOST: u32 = 9999;

/// How many texts were seen of each sort.
#[derive(Debug, Default)]
struct Seen {
    /// The plain reader and the host read the same poses.
    same: usize,
    /// The plain reader accepts a mark over 1, which no pose has.
    marks: usize,
    /// The plain reader refuses a number that is too large; a pose has any.
    large: usize,
    /// Neither reads them.
    refused: usize,
}

/// A plain pose as the host has it; none for a mark over 1.
fn of_plain(pose: &plain::placement::Pose) -> Option<Pose> {
    Some(Pose {
        site: pose.site.into(),
        layout: pose.layout.into(),
        mirrored: match pose.mark {
            0 => false,
            1 => true,
            _ => return None,
        },
    })
}

impl Seen {
    /// Reads a text both ways, for as many cells as it has line feeds.
    fn compare(&mut self, placement: &[u8]) {
        let shown = placement.escape_ascii();
        let lines = placement.iter().filter(|&&byte| byte == b'\n').count();
        let parsed = parse(placement);
        if let Ok(poses) = &parsed {
            assert_eq!(text(poses), placement, "{shown}");
        }
        match (read_placement(placement, lines), parsed) {
            (Ok(plain), Ok(poses)) => {
                let plain: Option<Vec<Pose>> = plain.iter().map(of_plain).collect();
                assert_eq!(plain, Some(poses), "{shown}");
                self.same += 1;
            }
            (Ok(plain), Err(error)) => {
                let first = plain.iter().position(|pose| pose.mark > 1);
                assert_eq!(first.map(|at| at + 1), Some(error.line), "{shown}");
                self.marks += 1;
            }
            (Err(_), Ok(poses)) => {
                let large = |pose: &Pose| pose.site.max(pose.layout) > MOST;
                assert!(poses.iter().any(large), "{shown}");
                self.large += 1;
            }
            (Err(_), Err(_)) => self.refused += 1,
        }
    }
}

#[test]
fn on_placements_of_every_kind() {
    let mut random = Random::new(61);
    let mut seen = Seen::default();
    for _ in 0..10_000 {
        let (job, mut placement) = placements::job_with_legal_placement(&mut random);
        seen.compare(&text_of(&placement));
        placements::wander(&mut random, &job, &mut placement);
        seen.compare(&text_of(&placement));
        let job = jobs::job_of_any_size(&mut random);
        seen.compare(&text_of(&placements::wild(&mut random, &job)));
    }
    assert!(seen.same > 20_000 && seen.marks > 2_000, "{seen:?}");
    assert_eq!(seen.large + seen.refused, 0, "{seen:?}");
}

#[test]
fn on_damaged_texts() {
    let mut random = Random::new(62);
    let mut seen = Seen::default();
    for _ in 0..40_000 {
        let (_, placement) = placements::job_with_legal_placement(&mut random);
        let mut text = text_of(&placement);
        let line = random.below(placement.len());
        random
            .pick(&Damage::ALL)
            .inflict(&mut random, &mut text, line);
        seen.compare(&text);
    }
    let met = [seen.same, seen.refused]
        .iter()
        .all(|&count| count > 10_000);
    assert!(met && seen.marks > 300 && seen.large > 100, "{seen:?}");
}
