//! A layout of a cell: its width, and the fin heights at its edges.

pub struct Layout {
    pub width: u32,
    /// Left and right edge, of a tall cell in row 0 and then in row 1.
    edges: Vec<[Edge; 2]>,
}

/// The fin heights at an edge of a cell.
#[derive(Clone, Copy, Debug, PartialEq, Eq)]
pub struct Edge {
    pub p: u32,
    pub n: u32,
}

impl Layout {
    /// The layout that the numbers of a cell line say: the width, then left P, left N, right P and
    /// right N of each row.
    pub fn of(numbers: &[u32]) -> Option<Layout> {
        let (&width, heights) = numbers.split_first()?;
        let edge = |p, n| Edge { p, n };
        let edges = heights.chunks(4).filter_map(|heights| match *heights {
            [left_p, left_n, right_p, right_n] => {
                Some([edge(left_p, left_n), edge(right_p, right_n)])
            }
            _ => None,
        });
        Some(Layout {
            width,
            edges: edges.collect(),
        })
    }

    /// Left and right edge in a row: a tall cell has its own in each.
    pub fn edges_in(&self, row: u32) -> Option<[Edge; 2]> {
        let tall = self.edges.get(row as usize).filter(|_| row > 0);
        tall.or(self.edges.first()).copied()
    }

    /// The greatest of its fin heights.
    pub fn highest(&self) -> Option<u32> {
        let edges = self.edges.iter().flatten();
        edges.map(|edge| edge.p.max(edge.n)).max()
    }
}
