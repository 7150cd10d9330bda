//! The fewest sites that two rows can cover, each in file order.
//!
//! Cells are added by rising site over both rows. What matters of those added is how many each row has
//! and where the last of them stands: the next cell covers anew what lies right of the other row's
//! last one, and no more. A row begins with its edge, a cell without width that ends at site 0.

use super::gap::is_forbidden;
use super::job::{Cell, Job};
use super::placement::{Placement, Pose};

/// The most sites that a cell is offered: 2 D + 1, with the largest D.
const OFFERED: usize = 15;

/// How many sites are covered anew.
type Count = u16;

/// Stands for "there is no way", whatever is added.
const NONE: Count = Count::MAX;

/// A cell in its row. Its sites are numbered from the first that it is offered.
struct Line {
    first_site: i32,
    /// How many sites rules 2 and 3 leave it.
    offered: usize,
    width: i32,
}

impl Line {
    const EDGE: Line = Line {
        first_site: 0,
        offered: 1,
        width: 0,
    };

    fn of(job: &Job, cell: &Cell) -> Line {
        let width = cell.layout[0].width;
        let limit = job.displacement_of(cell);
        let first_site = cell.given.saturating_sub(limit);
        let past_last = (cell.given + limit + 1).min((job.sites + 1).saturating_sub(width));
        Line {
            first_site: first_site.into(),
            offered: past_last.saturating_sub(first_site).into(),
            width: width.into(),
        }
    }

    fn site(&self, number: usize) -> i32 {
        self.first_site + number as i32
    }

    /// The first site right of the cell.
    fn end(&self, number: usize) -> i32 {
        self.site(number) + self.width
    }

    /// How many sites it covers anew, where the other row's last cell begins no further right and
    /// has this end.
    fn anew(&self, number: usize, other_end: i32) -> Count {
        let from = other_end.max(self.site(number));
        (self.end(number) - from).max(0) as Count
    }

    /// Whether it can stand at this site or right of it.
    fn reaches(&self, site: i32) -> bool {
        site < self.site(self.offered)
    }
}

/// The fewest sites that the cells still to come cover anew, by the site numbers of both rows' last
/// cells.
#[derive(Clone)]
struct Block([[Count; OFFERED]; OFFERED]);

impl Block {
    const NONE: Block = Block([[NONE; OFFERED]; OFFERED]);

    /// By the number in a row and the one beside it in the other row.
    fn count(&self, row: usize, number: usize, beside: usize) -> Count {
        match row {
            0 => self.0[number][beside],
            _ => self.0[beside][number],
        }
    }

    fn lower(&mut self, row: usize, number: usize, beside: usize, count: Count) {
        let here = match row {
            0 => &mut self.0[number][beside],
            _ => &mut self.0[beside][number],
        };
        *here = count.min(*here);
    }
}

/// The fewest sites that a row's next cell and all after it cover anew.
struct Next {
    first_site: i32,
    /// By its site number.
    at: [Count; OFFERED],
    /// Over this site number and all higher ones.
    from: [Count; OFFERED + 1],
}

impl Next {
    /// Where the other row's last cell has this end, and `after` has what later cells cover.
    fn of(line: &Line, other_end: i32, after: impl Fn(usize) -> Count) -> Next {
        let mut next = Next {
            first_site: line.first_site,
            at: [NONE; OFFERED],
            from: [NONE; OFFERED + 1],
        };
        for number in (0..line.offered).rev() {
            let count = after(number).saturating_add(line.anew(number, other_end));
            next.at[number] = count;
            next.from[number] = count.min(next.from[number + 1]);
        }
        next
    }

    /// Behind an end in its row and not left of a site: it touches the cell before it, or leaves two
    /// sites or more.
    fn least(&self, end: i32, leftmost: i32) -> Count {
        let touching = match end >= leftmost {
            true => self.count_at(end),
            false => NONE,
        };
        touching.min(self.count_from(leftmost.max(end + 2)))
    }

    fn count_at(&self, site: i32) -> Count {
        let number = usize::try_from(site - self.first_site).ok();
        let count = number.and_then(|number| self.at.get(number));
        count.copied().unwrap_or(NONE)
    }

    fn count_from(&self, site: i32) -> Count {
        let number = (site - self.first_site).max(0) as usize;
        self.from.get(number).copied().unwrap_or(NONE)
    }
}

/// How many cells each row has so far.
type Placed = [usize; 2];

/// Where the search stands: the cells so far, and the site number of each row's last.
#[derive(Clone, Copy, Default)]
struct State {
    placed: Placed,
    numbers: [usize; 2],
}

/// A cell that is added, and what it leads to.
struct Step {
    row: usize,
    site: i32,
    then: State,
    /// The fewest sites that it and all after it cover anew.
    count: Count,
}

pub struct Search {
    rows: [Vec<Line>; 2],
    sites: i32,
    /// By the cells so far of row 0, then of row 1.
    blocks: Vec<Block>,
}

impl Search {
    /// A search in a job of two rows without tall cells.
    pub fn of(job: &Job) -> Search {
        let rows = [0, 1].map(|row| {
            let in_row = job.cells.iter().filter(|cell| cell.row == row);
            let lines = in_row.map(|cell| Line::of(job, cell));
            [Line::EDGE].into_iter().chain(lines).collect::<Vec<_>>()
        });
        let mut search = Search {
            blocks: vec![Block::NONE; rows[0].len() * rows[1].len()],
            rows,
            sites: job.sites.into(),
        };
        search.fill();
        search
    }

    /// The fewest sites that all cells cover; none if there is no way to place them.
    pub fn least_covered(&self) -> Option<u16> {
        let count = self.count(&State::default());
        (count != NONE).then_some(count)
    }

    /// A placement that covers no more, if there is a way.
    pub fn placement(&self, job: &Job) -> Option<Placement> {
        let mut sites = [Vec::new(), Vec::new()];
        let mut state = State::default();
        for _ in &job.cells {
            let steps = (0..2).flat_map(|row| self.steps(state, row));
            let best = steps.min_by_key(|step| step.count)?;
            sites[best.row].push(best.site as u16);
            state = best.then;
        }
        let mut sites = sites.map(Vec::into_iter);
        let pose = |cell: &Cell| {
            let site = sites[usize::from(cell.row)].next()?;
            Some(Pose {
                site,
                ..Pose::default()
            })
        };
        job.cells.iter().map(pose).collect()
    }

    /// The ways to add a row's next cell: behind the row's last by rules 4, 5 and 8, and not left of
    /// the other row's last.
    fn steps(&self, state: State, row: usize) -> impl Iterator<Item = Step> + '_ {
        let State { placed, numbers } = state;
        let end = self.last(placed, row).end(numbers[row]);
        let other = self.last(placed, 1 - row);
        let (other_site, other_end) = (other.site(numbers[1 - row]), other.end(numbers[1 - row]));
        let next = self.next(placed, row).into_iter();
        let sites = next.flat_map(|line| (0..line.offered).map(move |number| (line, number)));
        sites.filter_map(move |(line, number)| {
            let site = line.site(number);
            let allowed = site >= end && !is_forbidden(site - end) && site >= other_site;
            let mut then = state;
            then.placed[row] += 1;
            then.numbers[row] = number;
            let anew = line.anew(number, other_end);
            allowed.then(|| Step {
                row,
                site,
                then,
                count: anew.saturating_add(self.count(&then)),
            })
        })
    }

    fn at(&self, placed: Placed) -> usize {
        placed[0] * self.rows[1].len() + placed[1]
    }

    fn count(&self, state: &State) -> Count {
        let [number, beside] = state.numbers;
        self.blocks[self.at(state.placed)].count(0, number, beside)
    }

    /// A row's last cell so far, or its edge.
    fn last(&self, placed: Placed, row: usize) -> &Line {
        &self.rows[row][placed[row]]
    }

    fn next(&self, placed: Placed, row: usize) -> Option<&Line> {
        self.rows[row].get(placed[row] + 1)
    }

    fn fill(&mut self) {
        for placed_0 in (0..self.rows[0].len()).rev() {
            for placed_1 in (0..self.rows[1].len()).rev() {
                let placed = [placed_0, placed_1];
                if self.goes_on(placed) {
                    let at = self.at(placed);
                    self.blocks[at] = self.block(placed);
                }
            }
        }
    }

    /// Whether each row's next cell, if there is one, can stand where the other row's last one does, or
    /// right of it.
    fn goes_on(&self, placed: Placed) -> bool {
        (0..2).all(|row| {
            let other = self.last(placed, 1 - row);
            let next = self.next(placed, row);
            next.is_none_or(|next| next.reaches(other.first_site))
        })
    }

    fn block(&self, placed: Placed) -> Block {
        let mut block = Block::NONE;
        if (0..2).all(|row| self.next(placed, row).is_none()) {
            self.close(&mut block);
        }
        for row in 0..2 {
            self.add(&mut block, placed, row);
        }
        block
    }

    /// Nothing is to come where both rows may end.
    fn close(&self, block: &mut Block) {
        let [ends_0, ends_1] = [0, 1].map(|row| self.ends(row));
        for &number in &ends_0 {
            for &beside in &ends_1 {
                block.lower(0, number, beside, 0);
            }
        }
    }

    /// The site numbers at which a row's last cell may end it, by rule 8; a row without cells is free.
    fn ends(&self, row: usize) -> Vec<usize> {
        let is_free = self.rows[row].len() == 1;
        let last = self.rows[row].last();
        let ends = last.into_iter().flat_map(|last| {
            let may_end = move |number: &usize| !is_forbidden(self.sites - last.end(*number));
            (0..last.offered).filter(move |number| is_free || may_end(number))
        });
        ends.collect()
    }

    /// Lowers counts to those of adding a row's next cell, if it has one, where they are less.
    fn add(&self, block: &mut Block, placed: Placed, row: usize) {
        let Some(next) = self.next(placed, row) else {
            return;
        };
        let mut then = placed;
        then[row] += 1;
        let after = &self.blocks[self.at(then)];
        let (own, other) = (self.last(placed, row), self.last(placed, 1 - row));
        for beside in 0..other.offered {
            let after = |number| after.count(row, number, beside);
            let next = Next::of(next, other.end(beside), after);
            for number in 0..own.offered {
                let least = next.least(own.end(number), other.site(beside));
                block.lower(row, number, beside, least);
            }
        }
    }
}
