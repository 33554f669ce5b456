//! What keeps a pool from being sound, in words.

use std::error::Error;
use std::fmt;

use crate::shape::{storage_length, Shape, BUFFER_LENGTH};
use crate::tables::{Link, State, Tables, VERSION};

/// The first thing found that keeps a pool from being sound. Print it to read it.
///
/// The verdict on a pool is the library's audit; this only says where to look.
#[derive(Clone, Copy, Debug, PartialEq, Eq)]
pub struct Fault(pub(crate) Kind);

/// The kinds of fault. Numbers come in the order in which the text names them.
#[derive(Clone, Copy, Debug, PartialEq, Eq)]
pub(crate) enum Kind {
    Header(usize),
    Mark,
    Version(u16),
    Counts(Shape),
    PoolLength(usize, usize),
    StorageLength(usize, usize),
    NotZero(u16),
    NoBuffer(u16, u16),
    NoBytes(u16),
    PastEnd(u16, usize),
    NextOutside(u16, u16),
    NextFree(u16, u16),
    HeadOutside(u16, u16),
    HeadFree(u16, u16),
    PieceCount(u16, u16, u16),
    BufferCount(u16, u16, u16),
    ComesBack(u16),
}

impl fmt::Display for Fault {
    fn fmt(&self, f: &mut fmt::Formatter<'_>) -> fmt::Result {
        use Kind::*;
        match self.0 {
            Header(length) => write!(f, "the pool has {length} bytes, its header alone 11"),
            Mark => write!(f, "the pool doesn't begin with the mark SLP"),
            Version(version) => write!(f, "the version is {version}, not {VERSION}"),
            Counts(shape) => write!(f, "a count is outside its range: {}", Told(shape)),
            PoolLength(length, asked) => {
                write!(f, "the pool has {length} bytes, its counts ask {asked}")
            }
            StorageLength(length, asked) => {
                write!(f, "storage has {length} bytes, its buffers ask {asked}")
            }
            NotZero(piece) => write!(f, "piece {piece} has count 0 and is not all zero"),
            NoBuffer(piece, buffer) => {
                write!(f, "piece {piece} lies on buffer {buffer}, which is none")
            }
            NoBytes(piece) => write!(f, "piece {piece} has length 0"),
            PastEnd(piece, end) => write!(f, "piece {piece} ends at {end} of 512"),
            NextOutside(piece, next) => {
                write!(f, "piece {piece} has piece {next} next, which is none")
            }
            NextFree(piece, next) => {
                write!(f, "piece {piece} has piece {next} next, which is free")
            }
            HeadOutside(slip, piece) => write!(f, "slip {slip} heads piece {piece}, which is none"),
            HeadFree(slip, piece) => write!(f, "slip {slip} heads piece {piece}, which is free"),
            PieceCount(piece, count, found) => {
                write!(f, "piece {piece} has count {count}, references {found}")
            }
            BufferCount(buffer, count, found) => {
                write!(f, "buffer {buffer} has count {count}, pieces {found}")
            }
            ComesBack(piece) => write!(f, "following next from piece {piece} comes back"),
        }
    }
}

/// Counts in words.
struct Told(Shape);

impl fmt::Display for Told {
    fn fmt(&self, f: &mut fmt::Formatter<'_>) -> fmt::Result {
        let shape = self.0;
        let (buffers, pieces, slips) = (shape.buffers, shape.pieces, shape.slips);
        write!(f, "{buffers} buffers, {pieces} pieces, {slips} slips")
    }
}

impl Error for Fault {}

/// What is wrong with a pool, if anything: first the header and both lengths, then the entries one
/// by one, then the counts, then the chains that come back.
pub(crate) fn find(pool: &[u8], storage: &[u8]) -> Result<(), Fault> {
    let tables = Tables::of(pool)?;
    let asked = storage_length(tables.shape.buffers);
    let length = storage.len();
    if length != asked {
        return Err(Fault(Kind::StorageLength(length, asked)));
    }
    pieces(&tables)?;
    slips(&tables)?;
    piece_counts(&tables)?;
    buffer_counts(&tables)?;
    rings(&tables)
}

/// Each piece by itself: free and zero, or on a buffer, within it, and before a piece in use.
fn pieces(tables: &Tables<'_>) -> Result<(), Fault> {
    for piece in 0..tables.shape.pieces {
        let entry = tables.piece(piece);
        let end = entry.offset as usize + entry.length as usize;
        let next = entry.next.map(|next| tables.link(next));
        let wrong = match (entry.count, next) {
            (0, _) if tables.is_zero(piece) => continue,
            (0, _) => Kind::NotZero(piece),
            _ if entry.buffer >= tables.shape.buffers => Kind::NoBuffer(piece, entry.buffer),
            _ if entry.length == 0 => Kind::NoBytes(piece),
            _ if end > BUFFER_LENGTH => Kind::PastEnd(piece, end),
            (_, Some(Link::Outside(next))) => Kind::NextOutside(piece, next),
            (_, Some(Link::Free(next))) => Kind::NextFree(piece, next),
            _ => continue,
        };
        return Err(Fault(wrong));
    }
    Ok(())
}

/// Each slip is vacant, or empty, or heads a piece in use; its serial may be any.
fn slips(tables: &Tables<'_>) -> Result<(), Fault> {
    for slip in 0..tables.shape.slips {
        let State::Heads(head) = tables.slip(slip) else {
            continue;
        };
        match tables.link(head) {
            Link::Outside(piece) => return Err(Fault(Kind::HeadOutside(slip, piece))),
            Link::Free(piece) => return Err(Fault(Kind::HeadFree(slip, piece))),
            _ => (),
        }
    }
    Ok(())
}

/// A piece's count is the number of slips heading it and of pieces in use whose next it is.
fn piece_counts(tables: &Tables<'_>) -> Result<(), Fault> {
    let mut references = vec![0; tables.shape.pieces as usize];
    let heads = (0..tables.shape.slips).filter_map(|s| match tables.slip(s) {
        State::Heads(d) => Some(d),
        _ => None,
    });
    let nexts = tables.in_use().filter_map(|(_, piece)| piece.next);
    for d in heads.chain(nexts) {
        references[d as usize] += 1;
    }
    for (piece, entry) in tables.in_use() {
        let (count, found) = (entry.count, references[piece as usize]);
        if count != found {
            return Err(Fault(Kind::PieceCount(piece, count, found)));
        }
    }
    Ok(())
}

/// A buffer's count is the number of pieces in use that lie on it.
fn buffer_counts(tables: &Tables<'_>) -> Result<(), Fault> {
    for buffer in 0..tables.shape.buffers {
        let count = tables.buffer(buffer);
        let lying = tables.in_use().filter(|(_, p)| p.buffer == buffer);
        let found = lying.count() as u16;
        if count != found {
            return Err(Fault(Kind::BufferCount(buffer, count, found)));
        }
    }
    Ok(())
}

/// Following next from any piece in use ends.
fn rings(tables: &Tables<'_>) -> Result<(), Fault> {
    for (piece, _) in tables.in_use() {
        if let Some(Link::Again(_)) = tables.chain(State::Heads(piece)).last() {
            return Err(Fault(Kind::ComesBack(piece)));
        }
    }
    Ok(())
}
