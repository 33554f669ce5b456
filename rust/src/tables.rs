//! A pool's entries read from its bytes, sound or not. Nothing is trusted but the lengths, which
//! are judged first.

use crate::fault::{Fault, Kind};
use crate::shape::{pool_length, Shape};
use crate::slip::Slip;

/// The bytes of mark, version and counts.
const HEADER: usize = 11;

/// The bytes of a slip's entry: its state and its serial.
const SLIP: usize = 4;

/// The version that the tables are read by.
pub(crate) const VERSION: u16 = 2;

/// What a slip's entry says.
#[derive(Clone, Copy, Debug, PartialEq, Eq)]
pub(crate) enum State {
    Vacant,
    Empty,
    Heads(u16),
}

/// A piece's entry.
#[derive(Clone, Copy, Debug, PartialEq, Eq)]
pub(crate) struct Piece {
    pub(crate) count: u16,
    pub(crate) buffer: u16,
    pub(crate) offset: u16,
    pub(crate) length: u16,
    pub(crate) next: Option<u16>,
}

/// One step along a chain: a piece, or the reason why the walk can't go on.
#[derive(Clone, Copy, Debug, PartialEq, Eq)]
pub(crate) enum Link {
    Piece(u16, Piece),
    Outside(u16),
    Free(u16),
    Again(u16),
}

/// The tables of a pool whose header and length fit.
#[derive(Clone, Copy)]
pub(crate) struct Tables<'a> {
    pool: &'a [u8],
    pub(crate) shape: Shape,
}

/// The 16-bit number at a position, low byte first.
fn word(pool: &[u8], at: usize) -> u16 {
    u16::from_le_bytes([pool[at], pool[at + 1]])
}

impl<'a> Tables<'a> {
    /// The tables, if mark, version, counts and the pool's length fit; else what doesn't.
    pub(crate) fn of(pool: &'a [u8]) -> Result<Tables<'a>, Fault> {
        let length = pool.len();
        if length < HEADER {
            return Err(Fault(Kind::Header(length)));
        }
        if !pool.starts_with(b"SLP") {
            return Err(Fault(Kind::Mark));
        }
        let version = word(pool, 3);
        if version != VERSION {
            return Err(Fault(Kind::Version(version)));
        }
        let shape = Shape {
            buffers: word(pool, 5),
            pieces: word(pool, 7),
            slips: word(pool, 9),
        };
        if !shape.in_range() {
            return Err(Fault(Kind::Counts(shape)));
        }
        let asked = pool_length(shape);
        if length != asked {
            return Err(Fault(Kind::PoolLength(length, asked)));
        }
        Ok(Tables { pool, shape })
    }

    /// The state of a slip below S.
    pub(crate) fn slip(&self, s: u16) -> State {
        match word(self.pool, HEADER + SLIP * s as usize) {
            0 => State::Vacant,
            1 => State::Empty,
            heads => State::Heads(heads - 2),
        }
    }

    /// The name of a slip below S: as it is held or, vacant, as it would be given.
    pub(crate) fn name(&self, s: u16) -> Slip {
        Slip::new(s, word(self.pool, HEADER + SLIP * s as usize + 2))
    }

    /// Whether a slip below S is vacant at the last serial, and so never given again.
    pub(crate) fn is_spent(&self, s: u16) -> bool {
        self.slip(s) == State::Vacant && self.name(s).serial == Slip::LAST_SERIAL
    }

    /// Where the entry of a piece starts.
    fn piece_start(&self, d: u16) -> usize {
        HEADER + SLIP * self.shape.slips as usize + 10 * d as usize
    }

    /// The entry of a piece below P.
    pub(crate) fn piece(&self, d: u16) -> Piece {
        let field = |k: usize| word(self.pool, self.piece_start(d) + 2 * k);
        Piece {
            count: field(0),
            buffer: field(1),
            offset: field(2),
            length: field(3),
            next: field(4).checked_sub(1),
        }
    }

    /// Whether all ten bytes of a piece are zero.
    pub(crate) fn is_zero(&self, d: u16) -> bool {
        let start = self.piece_start(d);
        self.pool[start..start + 10].iter().all(|byte| *byte == 0)
    }

    /// The count of a buffer below B.
    pub(crate) fn buffer(&self, b: u16) -> u16 {
        let start = self.piece_start(self.shape.pieces);
        word(self.pool, start + 2 * b as usize)
    }

    /// The pieces with a count above 0, by number.
    pub(crate) fn in_use(self) -> impl Iterator<Item = (u16, Piece)> + 'a {
        (0..self.shape.pieces)
            .map(move |d| (d, self.piece(d)))
            .filter(|(_, piece)| piece.count > 0)
    }

    /// A piece as a step of a chain.
    pub(crate) fn link(&self, d: u16) -> Link {
        if d >= self.shape.pieces {
            return Link::Outside(d);
        }
        match self.piece(d) {
            piece if piece.count == 0 => Link::Free(d),
            piece => Link::Piece(d, piece),
        }
    }

    /// The chain from a slip's head as far as it goes: each piece once, so at most P of them.
    pub(crate) fn chain(&self, state: State) -> Vec<Link> {
        let mut met = vec![false; self.shape.pieces as usize];
        let mut chain = Vec::new();
        let mut at = match state {
            State::Heads(d) => Some(d),
            _ => None,
        };
        while let Some(d) = at {
            let link = match self.link(d) {
                Link::Piece(..) if met[d as usize] => Link::Again(d),
                link => link,
            };
            chain.push(link);
            at = None;
            if let Link::Piece(_, piece) = link {
                met[d as usize] = true;
                at = piece.next;
            }
        }
        chain
    }

    /// The first slip of those at the end that are told in one line: in a pool of more than 8
    /// slips, the vacant ones at serial 0 behind all others, if they are more than one.
    pub(crate) fn vacant_tail(&self) -> u16 {
        let slips = self.shape.slips;
        let plain = |s: u16| self.slip(s) == State::Vacant && self.name(s).serial == 0;
        let other = (0..slips).rev().find(|s| !plain(*s));
        let tail = other.map_or(0, |s| s + 1);
        if slips > 8 && slips - tail > 1 {
            tail
        } else {
            slips
        }
    }
}
