//! A pool as a drawing, in Scalable Vector Graphics.

mod bars;
mod layout;

use std::fmt;

use crate::picture::{Picture, SPENT};
use crate::shape::BUFFER_LENGTH;
use crate::slip::Slip;
use crate::tables::{Link, Piece, State, Tables};
use bars::Bars;
use layout::{Layout, Spot, COLUMN, COLUMNS, HIGH, LANE, TOP, WIDE};

/// A picture of a pool in Scalable Vector Graphics: print it into a file.
///
/// Slips stand on the left, each before the boxes of its pieces and above its serial, where that is
/// not 0; a piece that several slips or pieces hold is drawn once, with an arrow from each of them.
/// Below are the buffers as bars of 512 bytes, with a stretch in the piece's colour for each piece
/// that lies on them.
#[derive(Clone, Copy, Debug)]
pub struct Svg<'a> {
    picture: Picture<'a>,
}

impl<'a> Svg<'a> {
    pub(crate) fn new(picture: Picture<'a>) -> Svg<'a> {
        Svg { picture }
    }
}

/// The left edge of slips and labels, and the width of a slip's box.
const LABELS: usize = 16;
const SLIP_WIDE: usize = 66;

const STYLE: &str = "\
text { font: 12px ui-monospace, monospace; fill: #222 }
.head { font-weight: bold }
.small { font-size: 10px; fill: #555 }
.label { font-size: 10px }
.torn { fill: #b00020; font-weight: bold }
.slip { fill: #fff; stroke: #222 }
.vacant { fill: none; stroke: #aaa; stroke-dasharray: 3 3 }
.piece { stroke: #222 }
.shared { stroke-width: 2.5 }
.arrow { fill: none; stroke: #222; stroke-width: 1.3; marker-end: url(#tip) }
.bar { fill: #f2f2f2; stroke: #999 }
.stretch { stroke: #222; stroke-width: 0.6 }";

/// A light colour for a piece: hues a golden angle apart, so that neighbours differ.
fn colour(d: u16) -> String {
    let hue = (f64::from(d) * 137.508) % 360.0;
    let light = if d % 2 == 0 { 0.82 } else { 0.74 };
    let spread = 0.65 * (1.0 - light);
    let channel = |turn: f64| {
        let at = (turn + hue / 30.0) % 12.0;
        let rise = (at - 3.0).min(9.0 - at).clamp(-1.0, 1.0);
        ((light - spread * rise) * 255.0) as u8
    };
    let (red, green, blue) = (channel(0.0), channel(8.0), channel(4.0));
    format!("#{red:02x}{green:02x}{blue:02x}")
}

impl fmt::Display for Svg<'_> {
    fn fmt(&self, f: &mut fmt::Formatter<'_>) -> fmt::Result {
        let fault = self.picture.fault().map(|fault| fault.to_string());
        let Some(tables) = self.picture.tables() else {
            open(f, 640, TOP)?;
            torn(f, fault.as_deref().unwrap_or_default())?;
            return writeln!(f, "</svg>");
        };
        let layout = Layout::of(&tables);
        let bars = Bars::of(&tables, TOP + LANE * layout.lanes + 30);
        let wide = (COLUMN * layout.columns + 60).max(BUFFER_LENGTH + 40);
        open(f, COLUMNS + wide, bars.end + 16)?;
        match &fault {
            Some(fault) => torn(f, fault)?,
            None => heading(f, &tables)?,
        }
        slips(f, &tables, &layout)?;
        pieces(f, &tables, &layout)?;
        bars.draw(f)?;
        writeln!(f, "</svg>")
    }
}

/// The head of the file: size, style, the arrow's tip and a white ground.
fn open(f: &mut fmt::Formatter<'_>, wide: usize, high: usize) -> fmt::Result {
    writeln!(f, "<?xml version=\"1.0\" encoding=\"UTF-8\"?>")?;
    writeln!(
        f,
        "<svg xmlns=\"http://www.w3.org/2000/svg\" width=\"{wide}\" height=\"{high}\" viewBox=\"0 0 {wide} {high}\">"
    )?;
    writeln!(f, "<title>A pool: slips, pieces and buffers</title>")?;
    writeln!(f, "<style>\n{STYLE}\n</style>")?;
    writeln!(
        f,
        "<defs><marker id=\"tip\" viewBox=\"0 0 8 8\" refX=\"8\" refY=\"4\" markerWidth=\"7\" markerHeight=\"7\" orient=\"auto\"><path d=\"M0 0 L8 4 L0 8 z\" fill=\"#222\"/></marker></defs>"
    )?;
    writeln!(
        f,
        "<rect width=\"{wide}\" height=\"{high}\" fill=\"#ffffff\"/>"
    )
}

fn text(f: &mut fmt::Formatter<'_>, class: &str, x: usize, y: usize, what: &str) -> fmt::Result {
    writeln!(
        f,
        "<text class=\"{class}\" x=\"{x}\" y=\"{y}\">{what}</text>"
    )
}

fn torn(f: &mut fmt::Formatter<'_>, fault: &str) -> fmt::Result {
    text(f, "torn", LABELS, 26, &format!("torn: {fault}"))
}

fn heading(f: &mut fmt::Formatter<'_>, tables: &Tables<'_>) -> fmt::Result {
    let used = tables.in_use().count();
    let what = format!(
        "{} slips, {} pieces ({used} in use, {} free), {} buffers",
        tables.shape.slips,
        tables.shape.pieces,
        tables.shape.pieces as usize - used,
        tables.shape.buffers
    );
    text(f, "head", LABELS, 26, &what)
}

/// The slips with their serials, and an arrow each to the piece that they head.
fn slips(f: &mut fmt::Formatter<'_>, tables: &Tables<'_>, layout: &Layout) -> fmt::Result {
    for slip in 0..layout.slips {
        let lane = slip as usize;
        let middle = Spot { lane, column: 0 }.middle();
        let state = tables.slip(slip);
        draw_slip(f, tables.name(slip), state, middle)?;
        let from = (LABELS + SLIP_WIDE, middle);
        let vacant = if tables.is_spent(slip) {
            SPENT
        } else {
            "vacant"
        };
        match state {
            State::Vacant => text(f, "small", COLUMNS - 24, middle + 4, vacant)?,
            State::Empty => text(f, "small", COLUMNS - 24, middle + 4, "empty")?,
            State::Heads(d) => arrow(f, from, tables.link(d), layout)?,
        }
    }
    if layout.slips < tables.shape.slips {
        let lane = layout.slips as usize;
        let y = Spot { lane, column: 0 }.middle() + 4;
        let last = tables.shape.slips - 1;
        let what = format!("slips {} to {last}: vacant", layout.slips);
        text(f, "small", LABELS, y, &what)?;
    }
    Ok(())
}

/// One slip: its number, and under it its serial where that is not 0.
fn draw_slip(f: &mut fmt::Formatter<'_>, name: Slip, state: State, middle: usize) -> fmt::Result {
    let class = match state {
        State::Vacant => "vacant",
        _ => "slip",
    };
    writeln!(
        f,
        "<rect class=\"{class}\" x=\"{LABELS}\" y=\"{}\" width=\"{SLIP_WIDE}\" height=\"24\" rx=\"12\"/>",
        middle - 12
    )?;
    let number = format!("slip {}", name.number);
    text(f, "head", LABELS + 10, middle + 4, &number)?;
    match name.serial {
        0 => Ok(()),
        serial => text(
            f,
            "small",
            LABELS + 10,
            middle + 22,
            &format!("serial {serial}"),
        ),
    }
}

/// The boxes of the pieces, each once, with an arrow to its next.
fn pieces(f: &mut fmt::Formatter<'_>, tables: &Tables<'_>, layout: &Layout) -> fmt::Result {
    if let Some(lane) = layout.stray {
        let y = Spot { lane, column: 0 }.middle() + 4;
        text(f, "torn", LABELS, y, "no slip")?;
    }
    for (d, piece) in tables.in_use() {
        let Some(spot) = layout.spots[d as usize] else {
            continue;
        };
        draw_piece(f, d, piece, spot)?;
        if let Some(next) = piece.next {
            let from = (spot.right(), spot.middle());
            arrow(f, from, tables.link(next), layout)?;
        }
    }
    Ok(())
}

/// One piece: its number and count, and under them its buffer, offset and length.
fn draw_piece(f: &mut fmt::Formatter<'_>, d: u16, piece: Piece, spot: Spot) -> fmt::Result {
    let (x, y) = (spot.left(), spot.top());
    let (class, count) = match piece.count {
        0 | 1 => ("piece", String::new()),
        count => ("piece shared", format!(" x{count}")),
    };
    writeln!(
        f,
        "<rect class=\"{class}\" x=\"{x}\" y=\"{y}\" width=\"{WIDE}\" height=\"{HIGH}\" rx=\"4\" fill=\"{}\"/>",
        colour(d)
    )?;
    text(f, "head", x + 8, y + 15, &format!("p{d}{count}"))?;
    let place = format!("b{} {}+{}", piece.buffer, piece.offset, piece.length);
    text(f, "place", x + 8, y + 30, &place)
}

/// An arrow to a piece: along the own lane, which is free behind its last box, to just before the
/// piece's column, and from there into the box. A link that leads nowhere is told in words.
fn arrow(
    f: &mut fmt::Formatter<'_>,
    (x, y): (usize, usize),
    link: Link,
    layout: &Layout,
) -> fmt::Result {
    let spot = match link {
        Link::Piece(d, _) => layout.spots[d as usize],
        _ => None,
    };
    let Some(spot) = spot else {
        return text(f, "torn", x + 4, y + 4, &format!("to {link}"));
    };
    let (to_x, to_y) = (spot.left(), spot.middle());
    let path = if to_x < x {
        let low = y.max(to_y) + HIGH;
        format!("C {} {low} {} {low} {to_x} {to_y}", x + 60, to_x - 60)
    } else if to_y == y {
        format!("H {to_x}")
    } else {
        let bend = to_x - 34;
        let turn = bend + 22;
        format!("H {bend} C {turn} {y} {bend} {to_y} {to_x} {to_y}")
    };
    writeln!(f, "<path class=\"arrow\" d=\"M {x} {y} {path}\"/>")
}
