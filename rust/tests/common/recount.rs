//! The recount of demand 3, from the pool's bytes alone: slips, nexts and pieces' buffers are read,
//! references counted from nothing, and only then compared with the stored counts.

use super::model::{Call, Name};

/// What the recount finds.
pub struct Recount {
    /// For each slip: nothing if vacant, else its head, if it has one.
    pub slips: Vec<Option<Option<usize>>>,
    /// For each slip: its serial as stored.
    pub serials: Vec<u64>,
    /// For each piece: buffer, length and next as stored.
    pieces: Vec<(usize, u64, Option<usize>)>,
    /// For each piece: the held slips heading it and the reached pieces whose next it is.
    pub references: Vec<u64>,
    /// For each buffer: the reached pieces lying on it.
    pub lying: Vec<u64>,
    reached: Vec<bool>,
}

fn at(pool: &[u8], position: usize) -> u64 {
    u16::from_le_bytes([pool[position], pool[position + 1]]) as u64
}

/// Recounts a pool; the text says what of demand 3 fails.
pub fn recount(pool: &[u8]) -> Result<Recount, String> {
    if pool.len() < 11 {
        return Err("no header".to_string());
    }
    let [b, p, s] = [5, 7, 9].map(|position| at(pool, position) as usize);
    if pool.len() != 11 + 4 * s + 10 * p + 2 * b {
        return Err("another length than the counts ask".to_string());
    }
    let slip_at = |i: usize| 11 + 4 * i;
    let piece_at = |d: usize| 11 + 4 * s + 10 * d;
    let buffer_at = |k: usize| 11 + 4 * s + 10 * p + 2 * k;

    let slips: Vec<Option<Option<usize>>> = (0..s)
        .map(|i| match at(pool, slip_at(i)) {
            0 => None,
            1 => Some(None),
            more => Some(Some(more as usize - 2)),
        })
        .collect();
    let serials = (0..s).map(|i| at(pool, slip_at(i) + 2)).collect();
    let pieces: Vec<(usize, u64, Option<usize>)> = (0..p)
        .map(|d| {
            let next = at(pool, piece_at(d) + 8) as usize;
            (
                at(pool, piece_at(d) + 2) as usize,
                at(pool, piece_at(d) + 6),
                next.checked_sub(1),
            )
        })
        .collect();

    // Reached: headed by a held slip, or the next of a reached piece; no chain meets itself.
    let mut reached = vec![false; p];
    for (i, head) in slips.iter().enumerate() {
        let mut met = vec![false; p];
        let mut place = head.flatten();
        while let Some(d) = place {
            if d >= p {
                return Err(format!("slip {i} leads to piece {d} of {p}"));
            }
            if met[d] {
                return Err(format!("slip {i} comes back to piece {d}"));
            }
            met[d] = true;
            reached[d] = true;
            place = pieces[d].2;
        }
    }

    let mut references = vec![0; p];
    for d in slips.iter().flatten().flatten() {
        references[*d] += 1;
    }
    let mut lying = vec![0; b];
    for d in (0..p).filter(|d| reached[*d]) {
        let (buffer, _, next) = pieces[d];
        if buffer >= b {
            return Err(format!("piece {d} lies on buffer {buffer} of {b}"));
        }
        lying[buffer] += 1;
        if let Some(next) = next {
            references[next] += 1;
        }
    }

    // The stored counts equal the references.
    for (d, found) in references.iter().enumerate() {
        let stored = at(pool, piece_at(d));
        if stored != *found {
            return Err(format!("piece {d} has count {stored}, references {found}"));
        }
    }
    for (k, found) in lying.iter().enumerate() {
        let stored = at(pool, buffer_at(k));
        if stored != *found {
            return Err(format!("buffer {k} has count {stored}, references {found}"));
        }
    }

    // No piece is both free and reached; free + reached = P.
    let free = |d: usize| pool[piece_at(d)..piece_at(d) + 10].iter().all(|x| *x == 0);
    for (d, reached) in reached.iter().enumerate() {
        if free(d) && *reached {
            return Err(format!("piece {d} is both free and reached"));
        }
        if !free(d) && !*reached {
            return Err(format!("piece {d} is neither free nor reached"));
        }
    }
    Ok(Recount {
        slips,
        serials,
        pieces,
        references,
        lying,
        reached,
    })
}

impl Recount {
    /// Slips vacant and not spent, pieces not reached, buffers without references.
    pub fn room(&self) -> (u64, u64, u64) {
        let slips = self.slips.iter().zip(&self.serials);
        let given = slips.filter(|(slip, serial)| slip.is_none() && **serial < 65_535);
        (
            given.count() as u64,
            self.reached.iter().filter(|r| !**r).count() as u64,
            self.lying.iter().filter(|n| **n == 0).count() as u64,
        )
    }

    /// The named slip's chain as (references, length) of each piece, if it is held at that serial.
    fn chain(&self, name: Name) -> Option<Vec<(u64, u64)>> {
        let head = (*self.slips.get(name.number as usize)?)?;
        if self.serials[name.number as usize] != name.serial as u64 {
            return None;
        }
        let mut chain = Vec::new();
        let mut place = head;
        while let Some(d) = place {
            chain.push((self.references[d], self.pieces[d].1));
            place = self.pieces[d].2;
        }
        Some(chain)
    }

    /// Code 8, 9 or 10 if the call must answer it after this recount, else nothing.
    pub fn full(&self, call: &Call) -> Option<u16> {
        let (slips, pieces, buffers) = self.wanted(call)?;
        let room = self.room();
        if slips > room.0 {
            Some(8)
        } else if pieces > room.1 + self.given_back(call) {
            Some(9)
        } else if buffers > room.2 {
            Some(10)
        } else {
            None
        }
    }

    /// Pieces that the call gives back before it takes any: drop and pullup the own ones wholly in front of what stays.
    pub fn given_back(&self, call: &Call) -> u64 {
        match call {
            Call::Drop { slip, n } | Call::Pullup { slip, n } => {
                let chain = self.chain(*slip).unwrap_or_default();
                in_front(&chain, *n as u64).min(first_shared(&chain))
            }
            _ => 0,
        }
    }

    /// New slips, pieces and buffers wanted; nothing if a code judged before 8 applies.
    pub fn wanted(&self, call: &Call) -> Option<(u64, u64, u64)> {
        match call {
            Call::Put { data } => {
                let pieces = (data.len() as u64).div_ceil(512);
                Some((1, pieces, pieces))
            }
            Call::Dup { slip } => Some((1, self.chain(*slip)?.len().min(1) as u64, 0)),
            Call::Cut {
                slip,
                offset,
                length,
            } => {
                let chain = self.chain(*slip)?;
                let (from, to) = (*offset as u64, *offset as u64 + *length as u64);
                if to > total(&chain) {
                    return None;
                }
                if *length == 0 {
                    return Some((1, 0, 0));
                }
                Some((1, 1 + index(&chain, to - 1) - index(&chain, from), 0))
            }
            Call::Append { a, b } => {
                let (chain_a, chain_b) = (self.chain(*a)?, self.chain(*b)?);
                if a.number == b.number {
                    return None;
                }
                if chain_b.is_empty() {
                    return Some((0, 0, 0));
                }
                Some((0, chain_a.len() as u64 - first_shared(&chain_a), 0))
            }
            Call::Drop { slip, n } => {
                let chain = self.chain(*slip)?;
                if *n as u64 > total(&chain) {
                    return None;
                }
                Some((0, for_drop(&chain, *n as u64), 0))
            }
            Call::Keep { slip, n } => {
                let chain = self.chain(*slip)?;
                let (n, whole) = (*n as u64, total(&chain));
                if n > whole {
                    return None;
                }
                if n == 0 || n == whole {
                    return Some((0, 0, 0));
                }
                let kept = 1 + index(&chain, n - 1);
                Some((0, kept.saturating_sub(first_shared(&chain)), 0))
            }
            Call::Pullup { slip, n } => {
                let chain = self.chain(*slip)?;
                let n = *n as u64;
                if n > 512 || n > total(&chain) {
                    return None;
                }
                if n == 0 || n <= chain[0].1 {
                    return Some((0, 0, 0));
                }
                Some((0, 1 + for_drop(&chain, n), 1))
            }
            Call::Pack { slip } => {
                let chain = self.chain(*slip)?;
                if chain.len() <= 1 {
                    return Some((0, 0, 0));
                }
                let pieces = total(&chain).div_ceil(512);
                Some((0, pieces, pieces))
            }
            // These want nothing.
            Call::Open { .. }
            | Call::Audit
            | Call::Free { .. }
            | Call::Length { .. }
            | Call::Read { .. }
            | Call::Show { .. }
            | Call::List { .. }
            | Call::Gather { .. }
            | Call::Stretches { .. } => None,
        }
    }
}

fn total(chain: &[(u64, u64)]) -> u64 {
    chain.iter().map(|(_, length)| length).sum()
}

/// Which piece of the chain holds the byte.
fn index(chain: &[(u64, u64)], byte: u64) -> u64 {
    let mut before = byte;
    for (i, (_, length)) in chain.iter().enumerate() {
        if before < *length {
            return i as u64;
        }
        before -= length;
    }
    panic!("byte {byte} is past the chain's end");
}

/// How many pieces lie wholly among the first n bytes.
fn in_front(chain: &[(u64, u64)], n: u64) -> u64 {
    let mut end = 0;
    let ends = chain.iter().map(|(_, length)| {
        end += length;
        end
    });
    ends.take_while(|end| *end <= n).count() as u64
}

/// How many pieces stand before the first one with another number of references than 1.
fn first_shared(chain: &[(u64, u64)]) -> u64 {
    let shared = chain.iter().position(|(references, _)| *references != 1);
    shared.unwrap_or(chain.len()) as u64
}

/// Pieces wanted by drop of n: one if the cut falls inside a piece that isn't own.
fn for_drop(chain: &[(u64, u64)], n: u64) -> u64 {
    if n == 0 || n == total(chain) {
        return 0;
    }
    let inside = index(chain, n) == index(chain, n - 1);
    u64::from(inside && index(chain, n) >= first_shared(chain))
}
