//! Where the boxes of slips and pieces stand.

use crate::tables::{Link, Tables};

/// The left edge of the first column, and of the bars below.
pub(super) const COLUMNS: usize = 120;
/// From one column of boxes to the next, and from one lane to the next.
pub(super) const COLUMN: usize = 148;
pub(super) const LANE: usize = 54;
/// The top of the first lane.
pub(super) const TOP: usize = 52;
/// Width and height of a piece's box.
pub(super) const WIDE: usize = 100;
pub(super) const HIGH: usize = 36;

/// Where a piece's box stands.
#[derive(Clone, Copy, PartialEq, Eq)]
pub(super) struct Spot {
    pub(super) lane: usize,
    pub(super) column: usize,
}

impl Spot {
    pub(super) fn left(self) -> usize {
        COLUMNS + COLUMN * self.column
    }

    pub(super) fn right(self) -> usize {
        self.left() + WIDE
    }

    pub(super) fn top(self) -> usize {
        TOP + LANE * self.lane
    }

    pub(super) fn middle(self) -> usize {
        self.top() + HIGH / 2
    }
}

/// The spot of every piece in use, and how many lanes and columns there are.
pub(super) struct Layout {
    pub(super) spots: Vec<Option<Spot>>,
    /// Slips that have a lane each; those behind them are told in one line.
    pub(super) slips: u16,
    /// The lane of the pieces that no slip reaches, as a torn pool may have them.
    pub(super) stray: Option<usize>,
    pub(super) lanes: usize,
    pub(super) columns: usize,
}

impl Layout {
    /// Each slip's chain in a lane of its own, as far as it is not placed already.
    pub(super) fn of(tables: &Tables<'_>) -> Layout {
        let slips = tables.vacant_tail();
        let mut layout = Layout {
            spots: vec![None; tables.shape.pieces as usize],
            slips,
            stray: None,
            lanes: slips as usize,
            columns: 1,
        };
        let columns = columns(tables);
        for slip in 0..slips {
            layout.place(slip as usize, &tables.chain(tables.slip(slip)), &columns);
        }
        let stray: Vec<Link> = tables
            .in_use()
            .filter(|(d, _)| layout.spots[*d as usize].is_none())
            .map(|(d, piece)| Link::Piece(d, piece))
            .collect();
        if slips < tables.shape.slips {
            layout.lanes += 1;
        }
        if !stray.is_empty() {
            layout.stray = Some(layout.lanes);
            layout.place(layout.lanes, &stray, &vec![0; columns.len()]);
            layout.lanes += 1;
        }
        layout
    }

    /// Places the pieces of a chain that have no spot yet in one lane, from left to right.
    fn place(&mut self, lane: usize, chain: &[Link], columns: &[usize]) {
        let mut least = 0;
        for link in chain {
            let Link::Piece(d, _) = *link else { continue };
            let spot = &mut self.spots[d as usize];
            if spot.is_none() {
                let column = columns[d as usize].max(least);
                *spot = Some(Spot { lane, column });
                least = column + 1;
                self.columns = self.columns.max(least);
            }
        }
    }
}

/// The column of each piece: behind every piece whose next it is. Where chains come back there are
/// no such columns, and zeros leave the order to the lanes.
fn columns(tables: &Tables<'_>) -> Vec<usize> {
    let pieces = tables.shape.pieces as usize;
    let mut columns = vec![0; pieces];
    for _ in 0..pieces {
        if !pushed(tables, &mut columns) {
            return columns;
        }
    }
    vec![0; pieces]
}

/// Moves each next behind its piece; answers whether any moved.
fn pushed(tables: &Tables<'_>, columns: &mut [usize]) -> bool {
    let mut moved = false;
    for (d, piece) in tables.in_use() {
        let least = columns[d as usize] + 1;
        if let Some(Link::Piece(next, _)) = piece.next.map(|next| tables.link(next)) {
            moved |= columns[next as usize] < least;
            columns[next as usize] = columns[next as usize].max(least);
        }
    }
    moved
}
