//! The buffers as bars, with a stretch for each piece that lies on them.

use std::fmt;

use super::layout::COLUMNS;
use super::{colour, text, LABELS};
use crate::shape::BUFFER_LENGTH;
use crate::tables::{Piece, Tables};

/// The height of a stretch in a bar, the width of its label, and the space between bars.
const STRETCH: usize = 16;
const LABEL: usize = 32;
const BETWEEN: usize = 10;

/// A buffer's bar: its label, and the rows of pieces that lie on it.
struct Bar {
    label: String,
    top: usize,
    rows: Vec<Vec<(u16, Piece)>>,
}

/// The bars of the buffers, and where they end.
pub(super) struct Bars {
    bars: Vec<Bar>,
    rest: Option<String>,
    pub(super) end: usize,
}

impl Bars {
    /// The bars from a height on; in a pool of more than 8 buffers, free ones at the end in one
    /// line.
    pub(super) fn of(tables: &Tables<'_>, from: usize) -> Bars {
        let buffers = tables.shape.buffers;
        let lies = |b: u16| tables.in_use().any(|(_, p)| p.buffer == b);
        let held = (0..buffers)
            .rev()
            .find(|b| tables.buffer(*b) > 0 || lies(*b));
        let tail = held.map_or(0, |b| b + 1);
        let last = if buffers > 8 && buffers - tail > 1 {
            tail
        } else {
            buffers
        };
        let mut bars = Vec::new();
        let mut top = from;
        for b in 0..last {
            let rows = rows(tables, b);
            let label = match tables.buffer(b) {
                0 => format!("b{b} free"),
                count => format!("b{b} x{count}"),
            };
            let high = STRETCH * rows.len().max(1);
            bars.push(Bar { label, top, rows });
            top += high + BETWEEN;
        }
        let rest = (last < buffers).then(|| format!("b{last} to b{} free", buffers - 1));
        let end = top + if rest.is_some() { STRETCH } else { 0 };
        Bars { bars, rest, end }
    }

    pub(super) fn draw(&self, f: &mut fmt::Formatter<'_>) -> fmt::Result {
        if let Some(first) = self.bars.first() {
            for byte in [0, 128, 256, 384, 512] {
                text(f, "small", COLUMNS + byte, first.top - 6, &byte.to_string())?;
            }
        }
        for bar in &self.bars {
            bar.draw(f)?;
        }
        match &self.rest {
            Some(rest) => text(f, "small", LABELS, self.end - 4, rest),
            None => Ok(()),
        }
    }
}

impl Bar {
    fn draw(&self, f: &mut fmt::Formatter<'_>) -> fmt::Result {
        let high = STRETCH * self.rows.len().max(1);
        let class = if self.rows.is_empty() {
            "vacant"
        } else {
            "bar"
        };
        text(f, "head", LABELS, self.top + 12, &self.label)?;
        writeln!(
            f,
            "<rect class=\"{class}\" x=\"{COLUMNS}\" y=\"{}\" width=\"{BUFFER_LENGTH}\" height=\"{high}\"/>",
            self.top
        )?;
        for (row, stretches) in self.rows.iter().enumerate() {
            let y = self.top + STRETCH * row;
            for (d, piece) in stretches {
                draw_stretch(f, *d, *piece, y)?;
            }
        }
        Ok(())
    }
}

/// First and last byte of a piece, the last one not included and both within the buffer.
fn stretch(piece: Piece) -> (usize, usize) {
    let start = (piece.offset as usize).min(BUFFER_LENGTH);
    let end = (start + piece.length as usize).min(BUFFER_LENGTH);
    (start, end)
}

/// A stretch with its label: inside where it is wide enough, else behind it or, at the end of the
/// buffer, before it.
fn extent(piece: Piece) -> (usize, usize) {
    let (start, end) = stretch(piece);
    if end - start >= LABEL {
        (start, end)
    } else if end + LABEL <= BUFFER_LENGTH {
        (start, end + LABEL)
    } else {
        (start.saturating_sub(LABEL), end)
    }
}

/// The pieces that lie on a buffer, in rows in which none overlaps another.
fn rows(tables: &Tables<'_>, b: u16) -> Vec<Vec<(u16, Piece)>> {
    let mut lying: Vec<(u16, Piece)> = tables.in_use().filter(|(_, p)| p.buffer == b).collect();
    lying.sort_by_key(|(d, piece)| (extent(*piece).0, *d));
    let mut rows: Vec<Vec<(u16, Piece)>> = Vec::new();
    for (d, piece) in lying {
        let start = extent(piece).0;
        let free = |row: &&mut Vec<(u16, Piece)>| {
            row.last()
                .map_or(true, |(_, last)| extent(*last).1 <= start)
        };
        match rows.iter_mut().find(free) {
            Some(row) => row.push((d, piece)),
            None => rows.push(vec![(d, piece)]),
        }
    }
    rows
}

/// One stretch of a bar, with its piece's number.
fn draw_stretch(f: &mut fmt::Formatter<'_>, d: u16, piece: Piece, y: usize) -> fmt::Result {
    let (start, end) = stretch(piece);
    let (from, to) = extent(piece);
    writeln!(
        f,
        "<rect class=\"stretch\" x=\"{}\" y=\"{y}\" width=\"{}\" height=\"{STRETCH}\" fill=\"{}\"><title>p{d}: {} bytes from {} of b{}</title></rect>",
        COLUMNS + start,
        end - start,
        colour(d),
        piece.length,
        piece.offset,
        piece.buffer
    )?;
    let label = if to > end { end } else { from };
    text(f, "label", COLUMNS + label + 4, y + 12, &format!("p{d}"))
}
