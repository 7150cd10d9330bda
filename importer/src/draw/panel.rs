//! A placement that is drawn: how its cells stand, its rows, and what the refiner says of it.

use super::row::{Row, Span};
use crate::board::{Board, Stand};
use crate::desk::FORBIDDEN;
use crate::explain::{read_placement, Job};
use crate::{
    placement, refine, score, sentence, Broken, Numbers, Pose, Refused, Sentence, Verdict,
};

pub struct Panel<'job> {
    pub name: &'static str,
    pub said: Said,
    pub board: Board<'job>,
    pub rows: Vec<Row>,
}

/// What the refiner says of a placement.
#[derive(Debug, PartialEq, Eq)]
pub enum Said {
    Legal(Numbers),
    Broken {
        rule: u32,
        /// Those that the sentence names.
        cells: Vec<u32>,
        sentence: String,
    },
}

impl<'job> Panel<'job> {
    /// The given rows, or a placement text.
    pub fn of(
        job: &'job Job,
        text: &[u8],
        placement: Option<&[u8]>,
    ) -> Result<Panel<'job>, Refused> {
        let given = given_rows(job);
        let (name, placement) = match placement {
            Some(placement) => ("placement", placement),
            None => ("given rows", &*given),
        };
        let said = match score(text, placement)? {
            Verdict::Legal(numbers) => Said::Legal(numbers),
            Verdict::Broken(broken) => Said::broken(broken, sentence(text, placement)?),
        };
        Panel::drawn(name, said, job, placement)
    }

    /// A cheapest legal placement.
    pub fn cheapest(job: &'job Job, text: &[u8]) -> Result<Panel<'job>, Refused> {
        let refined = refine(text)?;
        let said = Said::Legal(refined.numbers);
        Panel::drawn("cheapest", said, job, &refined.text)
    }

    fn drawn(
        name: &'static str,
        said: Said,
        job: &'job Job,
        placement: &[u8],
    ) -> Result<Panel<'job>, Refused> {
        // Score took it, or Place wrote it.
        let poses = read_placement(placement, job.cells.len()).map_err(|reason| reason.answer)?;
        let board = Board::of(job, &poses);
        let rows = (0..job.header.rows).map(|row| Row::of(row, &board));
        Ok(Panel {
            name,
            said,
            rows: rows.collect(),
            board,
        })
    }

    /// Whether this is a cell that the refiner names.
    pub fn names(&self, stand: &Stand) -> bool {
        match &self.said {
            Said::Legal(_) => false,
            Said::Broken { cells, .. } => cells.contains(&stand.number),
        }
    }

    /// Whether the cell shares any of its sites with another.
    pub fn overlaps(&self, stand: &Stand) -> bool {
        self.shares(stand, stand.sites())
    }

    /// Whether the cell shares its first site with another.
    pub fn overlaps_first(&self, stand: &Stand) -> bool {
        let from = stand.pose.site;
        let end = from + 1;
        self.shares(stand, Span { from, end })
    }

    fn shares(&self, stand: &Stand, sites: Span) -> bool {
        let rows = self.rows.iter();
        let mut of_cell = rows.filter(|row| stand.cell.stands_in(row.number));
        of_cell.any(|row| row.shares(&sites))
    }

    /// The sites that must be seen: of cells as they stand and as they were given, and where one is
    /// empty.
    pub fn seen(&self) -> impl Iterator<Item = Span> + '_ {
        let stands = self.board.stands.iter();
        let cells = stands.flat_map(|stand| [stand.sites(), stand.given_sites()]);
        let gaps = self.rows.iter().flat_map(|row| &row.gaps);
        let spans = gaps.map(|gap| gap.span);
        let one_site = spans.filter(|span| span.sites() == FORBIDDEN);
        cells.chain(one_site)
    }
}

/// The text of the placement that leaves each cell as it is given.
fn given_rows(job: &Job) -> Vec<u8> {
    let pose = |site| Pose {
        site,
        ..Pose::default()
    };
    let poses = job.cells.iter().map(|cell| pose(cell.given));
    placement::text(&poses.collect::<Vec<_>>())
}

impl Said {
    /// A broken rule. Of a sentence that cannot be read, the cell that Score names is kept.
    fn broken(Broken { rule, cell }: Broken, sentence: String) -> Said {
        let cells = match sentence.parse() {
            Ok(Sentence::Broken { cells, .. }) => cells,
            _ => vec![cell],
        };
        Said::Broken {
            rule,
            cells,
            sentence,
        }
    }

    /// In one line with a full stop, after the panel's name.
    pub fn words(&self) -> String {
        match self {
            Said::Legal(numbers) => {
                let Numbers {
                    steps,
                    shifted,
                    mirrored,
                    changed,
                    cost,
                    drift,
                    filled,
                } = numbers;
                let filled =
                    filled.map_or_else(String::new, |filled| format!(", filled steps {filled}"));
                format!(
                    "legal, cost {cost}, steps {steps}, sites shifted {shifted}, mirrored {mirrored}, \
                     changed {changed}, drift {drift} hundredths of a site{filled}."
                )
            }
            Said::Broken { rule, sentence, .. } => format!("not legal, rule {rule}: {sentence}"),
        }
    }
}
