//! The operations written by hand in ordinary Rust over the same bytes: the yardstick of the figures.
//!
//! Each but the audit and gather trusts that the pool is sound, and audits nothing. It judges its own codes in their order, takes nothing
//! before every refusal is ruled out, and loads and stores without bounds checks. A link is 0 for none, 1 + d for
//! piece d.

use std::mem::MaybeUninit;
use std::ptr;

use fulcrumnest::{Answer, Gathered, Refusal, Shape, Shown, Slip, Stretch};

/// Bytes of one buffer.
const SIZE: usize = 512;

const TORN: u16 = Refusal::Torn.code();
const SLIP: u16 = Refusal::Slip.code();
const SAME: u16 = Refusal::Same.code();
const LONG: u16 = Refusal::Long.code();
const RANGE: u16 = Refusal::Range.code();
const NARROW: u16 = Refusal::Narrow.code();
const SLIPS: u16 = Refusal::Slips.code();
const PIECES: u16 = Refusal::Pieces.code();
const BUFFERS: u16 = Refusal::Buffers.code();
const LIST: u16 = Refusal::List.code();

/// The version of the header.
const VERSION: usize = 2;

/// The bytes of a slip, and where its serial stands behind its state.
const ENTRY: usize = 4;
const SERIAL: usize = 2;

/// The last serial, at which a vacant slip is spent.
const LAST: usize = 65_535;

/// Where a piece's numbers stand behind its count.
const BUFFER: usize = 2;
const OFFSET: usize = 4;
const LENGTH: usize = 6;
const NEXT: usize = 8;

fn done(number: usize) -> Answer {
    Answer {
        code: 0,
        number: number as u32,
    }
}

fn refused(code: u16) -> Answer {
    Answer { code, number: 0 }
}

/// The 16-bit number at byte `at`, which lies inside the pool.
#[inline(always)]
unsafe fn get16(pool: &[u8], at: usize) -> usize {
    debug_assert!(at + 2 <= pool.len());
    u16::from_le_bytes(*pool.as_ptr().add(at).cast::<[u8; 2]>()) as usize
}

/// Writes the 16-bit number at byte `at`, which lies inside the pool.
#[inline(always)]
unsafe fn put16(pool: &mut [u8], at: usize, v: usize) {
    debug_assert!(at + 2 <= pool.len());
    *pool.as_mut_ptr().add(at).cast::<[u8; 2]>() = (v as u16).to_le_bytes();
}

/// The 32-bit number at byte `at`, which lies inside the pool: of a slip its state and 65,536 times its serial.
#[inline(always)]
unsafe fn get32(pool: &[u8], at: usize) -> u32 {
    debug_assert!(at + 4 <= pool.len());
    u32::from_le_bytes(*pool.as_ptr().add(at).cast::<[u8; 4]>())
}

/// Writes the 32-bit number at byte `at`, which lies inside the pool.
#[inline(always)]
unsafe fn put32(pool: &mut [u8], at: usize, v: u32) {
    debug_assert!(at + 4 <= pool.len());
    *pool.as_mut_ptr().add(at).cast::<[u8; 4]>() = v.to_le_bytes();
}

/// Takes 1 from the 16-bit number at byte `at`, in place, and answers what is left.
#[inline(always)]
unsafe fn less(pool: &mut [u8], at: usize) -> u16 {
    let left = (get16(pool, at) as u16).wrapping_sub(1);
    put16(pool, at, left as usize);
    left
}

/// Whether at least `wanted` entries from `first` on, which is free, start with 0.
#[inline(always)]
unsafe fn room(
    pool: &[u8],
    first: usize,
    total: usize,
    wanted: usize,
    at: impl Fn(usize) -> usize,
) -> bool {
    let mut left = wanted;
    let mut i = first;
    while i < total {
        if get16(pool, at(i)) == 0 {
            left -= 1;
            if left == 0 {
                return true;
            }
        }
        i += 1;
    }
    false
}

/// How long the tables are, and where those of pieces and of buffers start.
#[derive(Clone, Copy)]
struct Tables {
    buffers: usize,
    pieces: usize,
    slips: usize,
    first_piece: usize,
    first_count: usize,
}

impl Tables {
    #[inline(always)]
    unsafe fn of(pool: &[u8]) -> Tables {
        let (buffers, pieces, slips) = (get16(pool, 5), get16(pool, 7), get16(pool, 9));
        Tables {
            buffers,
            pieces,
            slips,
            first_piece: 11 + ENTRY * slips,
            first_count: 11 + ENTRY * slips + 10 * pieces,
        }
    }

    /// The byte of slip `s`.
    #[inline(always)]
    fn slip(self, s: usize) -> usize {
        11 + ENTRY * s
    }

    /// The byte of piece `d`.
    #[inline(always)]
    fn piece(self, d: usize) -> usize {
        self.first_piece + 10 * d
    }

    /// The byte of the count of buffer `b`.
    #[inline(always)]
    fn count(self, b: usize) -> usize {
        self.first_count + 2 * b
    }

    /// The link that a slip holds, if it is held at the serial given.
    unsafe fn held(self, pool: &[u8], slip: Slip) -> Option<usize> {
        let s = slip.number as usize;
        if s >= self.slips {
            return None;
        }
        // Another serial leaves more than a state, a vacant slip less than a link.
        let state = get32(pool, self.slip(s)) ^ ((slip.serial as u32) << 16);
        let link = state.wrapping_sub(1) as usize;
        (link < LAST).then_some(link)
    }

    /// The lowest vacant slip that is not spent.
    #[inline(always)]
    unsafe fn vacant(self, pool: &[u8]) -> Option<usize> {
        let mut at = self.slip(0);
        while at < self.first_piece {
            if get16(pool, at) == 0 && get16(pool, at + SERIAL) != LAST {
                return Some((at - self.slip(0)) / ENTRY);
            }
            at += ENTRY;
        }
        None
    }

    /// The vacant slip `s` takes a state; answers its number and serial.
    unsafe fn give(self, pool: &mut [u8], s: usize, state: usize) -> Answer {
        let at = self.slip(s);
        put16(pool, at, state);
        done(s + (get16(pool, at + SERIAL) << 16))
    }

    /// A held slip is vacant at the next serial, never past the last.
    unsafe fn vacate(self, pool: &mut [u8], slip: Slip) {
        let serial = slip.serial.saturating_add(1);
        put32(pool, self.slip(slip.number as usize), (serial as u32) << 16);
    }

    /// The lowest free piece from `from` on.
    #[inline(always)]
    unsafe fn free_piece(self, pool: &[u8], from: usize) -> Option<usize> {
        let mut at = self.piece(from);
        while at < self.first_count {
            if get16(pool, at) == 0 {
                return Some((at - self.first_piece) / 10);
            }
            at += 10;
        }
        None
    }

    /// The lowest free buffer from `from` on.
    #[inline(always)]
    unsafe fn free_buffer(self, pool: &[u8], from: usize) -> Option<usize> {
        let mut b = from;
        while b < self.buffers {
            if get16(pool, self.count(b)) == 0 {
                return Some(b);
            }
            b += 1;
        }
        None
    }

    /// The lowest free piece, if at least `wanted` are free, which is above 0.
    #[inline(always)]
    unsafe fn room_for_pieces(self, pool: &[u8], wanted: usize) -> Option<usize> {
        let first = self.free_piece(pool, 0)?;
        room(pool, first, self.pieces, wanted, |d| self.piece(d)).then_some(first)
    }

    /// The lowest free buffer, if at least `wanted` are free, which is above 0.
    #[inline(always)]
    unsafe fn room_for_buffers(self, pool: &[u8], wanted: usize) -> Option<usize> {
        let first = self.free_buffer(pool, 0)?;
        room(pool, first, self.buffers, wanted, |b| self.count(b)).then_some(first)
    }

    /// The free piece `d` becomes a piece of count 1.
    unsafe fn take(
        self,
        pool: &mut [u8],
        d: usize,
        buffer: usize,
        offset: usize,
        length: usize,
        next: usize,
    ) {
        let held = self.count(buffer);
        put16(pool, held, get16(pool, held) + 1);
        let at = self.piece(d);
        put16(pool, at, 1);
        put16(pool, at + BUFFER, buffer);
        put16(pool, at + OFFSET, offset);
        put16(pool, at + LENGTH, length);
        put16(pool, at + NEXT, next);
    }

    /// One reference more to where `link` leads.
    unsafe fn share(self, pool: &mut [u8], link: usize) {
        if link != 0 {
            let at = self.piece(link - 1);
            put16(pool, at, get16(pool, at) + 1);
        }
    }

    /// One reference less to where `link` leads, which has another, if it leads anywhere.
    unsafe fn unshare(self, pool: &mut [u8], link: usize) {
        if link != 0 {
            less(pool, self.piece(link - 1));
        }
    }

    /// Releases one reference to where `link` leads, and cleans every buffer on which then no piece lies.
    unsafe fn release(self, pool: &mut [u8], storage: &mut [u8], mut link: usize) {
        while link != 0 {
            let at = self.piece(link - 1);
            if less(pool, at) != 0 {
                return;
            }
            let buffer = get16(pool, at + BUFFER);
            link = get16(pool, at + NEXT);
            pool.get_unchecked_mut(at..at + 10).fill(0);
            if less(pool, self.count(buffer)) == 0 {
                clean(storage, buffer);
            }
        }
    }
}

/// A place in a chain: the link to a piece, the bytes of it before the place, and whether it is own.
#[derive(Clone, Copy)]
struct Place {
    link: usize,
    into: usize,
    own: bool,
}

impl Place {
    /// The start of the piece that `link` leads to.
    fn start(link: usize) -> Place {
        Place {
            link,
            into: 0,
            own: false,
        }
    }

    /// Whether what stays from here on wants a new piece.
    fn wants_piece(self) -> bool {
        self.into != 0 && !self.own
    }
}

impl Tables {
    /// The bytes of the chain from `link`.
    unsafe fn length(self, pool: &[u8], mut link: usize) -> usize {
        let mut length = 0;
        while link != 0 {
            let at = self.piece(link - 1);
            length += get16(pool, at + LENGTH);
            link = get16(pool, at + NEXT);
        }
        length
    }

    /// The place `n` bytes into the chain from `link`, if it has so many.
    unsafe fn find(self, pool: &[u8], mut link: usize, n: usize) -> Option<Place> {
        let mut into = n;
        let mut own = true;
        while link != 0 {
            let at = self.piece(link - 1);
            own &= get16(pool, at) == 1;
            let length = get16(pool, at + LENGTH);
            if into < length {
                break;
            }
            into -= length;
            link = get16(pool, at + NEXT);
        }
        (link != 0 || into == 0).then_some(Place { link, into, own })
    }

    /// How many pieces the first `n` bytes from `link` overlap, if there are so many bytes.
    unsafe fn pieces_of(self, pool: &[u8], mut link: usize, n: usize) -> Option<usize> {
        let mut left = n;
        let mut pieces = 0;
        while left > 0 {
            if link == 0 {
                return None;
            }
            let at = self.piece(link - 1);
            left = left.saturating_sub(get16(pool, at + LENGTH));
            pieces += 1;
            link = get16(pool, at + NEXT);
        }
        Some(pieces)
    }

    /// Copies `n` bytes of a chain from a place on to `output`, which stands apart from them.
    unsafe fn gather(
        self,
        pool: &[u8],
        storage: *const u8,
        from: Place,
        n: usize,
        output: *mut u8,
    ) -> Place {
        let mut from = from;
        let mut copied = 0;
        while copied < n {
            let at = self.piece(from.link - 1);
            let length = get16(pool, at + LENGTH);
            let start = SIZE * get16(pool, at + BUFFER) + get16(pool, at + OFFSET) + from.into;
            let part = (length - from.into).min(n - copied);
            ptr::copy_nonoverlapping(storage.add(start), output.add(copied), part);
            copied += part;
            from.into += part;
            if from.into == length {
                from.link = get16(pool, at + NEXT);
                from.into = 0;
            }
        }
        from
    }

    /// New pieces from the free piece `first` on, for the `n` bytes from a place on, which overlap `pieces` pieces,
    /// on the same buffers and before the link `tail`; answers the link to the first.
    unsafe fn copy_pieces(
        self,
        pool: &mut [u8],
        first: usize,
        from: Place,
        n: usize,
        pieces: usize,
        tail: usize,
    ) -> usize {
        let (mut link, mut skip, mut left) = (from.link, from.into, n);
        let mut free = first;
        for more in (0..pieces).rev() {
            let at = self.piece(link - 1);
            let buffer = get16(pool, at + BUFFER);
            let offset = get16(pool, at + OFFSET) + skip;
            let length = (get16(pool, at + LENGTH) - skip).min(left);
            link = get16(pool, at + NEXT);
            skip = 0;
            left -= length;
            if more == 0 {
                self.take(pool, free, buffer, offset, length, tail);
            } else {
                let next = self.free_piece(pool, free + 1).unwrap_unchecked();
                self.take(pool, free, buffer, offset, length, next + 1);
                free = next;
            }
        }
        first + 1
    }

    /// What stays from a place on that wants no piece, with one reference more; answers the link to it.
    unsafe fn hold(self, pool: &mut [u8], from: Place) -> usize {
        self.share(pool, from.link);
        if from.into != 0 {
            let at = self.piece(from.link - 1);
            put16(pool, at + OFFSET, get16(pool, at + OFFSET) + from.into);
            put16(pool, at + LENGTH, get16(pool, at + LENGTH) - from.into);
        }
        from.link
    }

    /// What stays from a place on that wants a piece, on the free piece `free`; answers the link to it.
    unsafe fn renew(self, pool: &mut [u8], from: Place, free: usize) -> usize {
        let at = self.piece(from.link - 1);
        let offset = get16(pool, at + OFFSET) + from.into;
        let length = get16(pool, at + LENGTH) - from.into;
        let (buffer, next) = (get16(pool, at + BUFFER), get16(pool, at + NEXT));
        self.share(pool, next);
        self.take(pool, free, buffer, offset, length, next);
        free + 1
    }
}

/// Fills a whole buffer with zeros.
#[inline(always)]
unsafe fn clean(storage: &mut [u8], buffer: usize) {
    debug_assert!(SIZE * (buffer + 1) <= storage.len());
    ptr::write_bytes(storage.as_mut_ptr().add(SIZE * buffer), 0, SIZE);
}

/// Fills the rest of a buffer, from its byte `n` on, with zeros.
unsafe fn clear_rest(storage: &mut [u8], buffer: usize, n: usize) {
    let start = SIZE * buffer;
    storage.get_unchecked_mut(start + n..start + SIZE).fill(0);
}

/// Counters that have counted nothing.
unsafe fn cleared(counters: &mut [MaybeUninit<u16>]) -> &mut [u16] {
    counters.as_mut_ptr().write_bytes(0, counters.len());
    &mut *(counters as *mut [MaybeUninit<u16>] as *mut [u16])
}

/// The code of audit: header, slips, pieces, counts, then the walk with colours.
unsafe fn audited(pool: &[u8], storage: usize) -> u16 {
    if pool.len() < 11 || &pool[..3] != b"SLP" || get16(pool, 3) != VERSION {
        return TORN;
    }
    let t = Tables::of(pool);
    let (b, p, s) = (t.buffers, t.pieces, t.slips);
    let most = Shape::MOST;
    let ranges = (1..=most.buffers as usize).contains(&b)
        && (1..=most.pieces as usize).contains(&p)
        && (1..=most.slips as usize).contains(&s);
    if !ranges || pool.len() != t.count(b) || storage != SIZE * b {
        return TORN;
    }
    // Of the counters only those of the pool's own entries are cleared.
    let mut refs = [MaybeUninit::<u16>::uninit(); Shape::MOST.pieces as usize];
    let mut lies = [MaybeUninit::<u16>::uninit(); Shape::MOST.buffers as usize];
    let refs = cleared(refs.get_unchecked_mut(..p));
    let lies = cleared(lies.get_unchecked_mut(..b));
    for slip in 0..s {
        let v = get16(pool, t.slip(slip));
        if v > p + 1 {
            return TORN;
        }
        if v >= 2 {
            *refs.get_unchecked_mut(v - 2) += 1;
        }
    }
    for d in 0..p {
        let at = t.piece(d);
        let (buffer, offset) = (get16(pool, at + BUFFER), get16(pool, at + OFFSET));
        let (length, next) = (get16(pool, at + LENGTH), get16(pool, at + NEXT));
        if get16(pool, at) == 0 {
            if buffer != 0 || offset != 0 || length != 0 || next != 0 {
                return TORN;
            }
            continue;
        }
        if buffer >= b || length < 1 || offset + length > SIZE || next > p {
            return TORN;
        }
        if next != 0 {
            *refs.get_unchecked_mut(next - 1) += 1;
        }
        *lies.get_unchecked_mut(buffer) += 1;
    }
    for d in 0..p {
        if get16(pool, t.piece(d)) != *refs.get_unchecked(d) as usize {
            return TORN;
        }
    }
    for i in 0..b {
        if get16(pool, t.count(i)) != *lies.get_unchecked(i) as usize {
            return TORN;
        }
    }
    let mut colours = [MaybeUninit::<u16>::uninit(); Shape::MOST.pieces as usize];
    let colours = cleared(colours.get_unchecked_mut(..p));
    for d in 0..p {
        let colour = d as u16 + 1;
        let mut link = d + 1;
        while link != 0 {
            let seen = colours.get_unchecked_mut(link - 1);
            if *seen == colour {
                return TORN;
            }
            if *seen != 0 {
                break;
            }
            *seen = colour;
            link = get16(pool, t.piece(link - 1) + NEXT);
        }
    }
    0
}

/// audit: whether the pool is sound, for any bytes.
#[inline(never)]
pub fn audit(pool: &[u8], storage: &[u8]) -> Answer {
    // It loads nothing before it has tested the length that the loads ask.
    refused(unsafe { audited(pool, storage.len()) })
}

/// put: the bytes go into fresh pieces, under a new slip.
///
/// # Safety
/// As for every operation here: the pool is sound, and storage is of its length.
#[inline(never)]
pub unsafe fn put(pool: &mut [u8], storage: &mut [u8], data: &[u8]) -> Answer {
    let t = Tables::of(pool);
    let Some(slip) = t.vacant(pool) else {
        return refused(SLIPS);
    };
    if data.is_empty() {
        return t.give(pool, slip, 1);
    }
    let wanted = data.len().div_ceil(SIZE);
    let Some(first) = t.room_for_pieces(pool, wanted) else {
        return refused(PIECES);
    };
    let Some(mut buffer) = t.room_for_buffers(pool, wanted) else {
        return refused(BUFFERS);
    };
    let mut piece = first;
    let mut rest = data;
    loop {
        let n = rest.len().min(SIZE);
        let start = SIZE * buffer;
        ptr::copy_nonoverlapping(rest.as_ptr(), storage.as_mut_ptr().add(start), n);
        rest = rest.get_unchecked(n..);
        if rest.is_empty() {
            clear_rest(storage, buffer, n);
            t.take(pool, piece, buffer, 0, n, 0);
            break;
        }
        let next = t.free_piece(pool, piece + 1).unwrap_unchecked();
        t.take(pool, piece, buffer, 0, n, next + 1);
        piece = next;
        buffer = t.free_buffer(pool, buffer + 1).unwrap_unchecked();
    }
    t.give(pool, slip, first + 2)
}

/// free: the slip gives up its chain, and its serial is the next.
///
/// # Safety
/// As for put.
#[inline(never)]
pub unsafe fn free(pool: &mut [u8], storage: &mut [u8], slip: Slip) -> Answer {
    let t = Tables::of(pool);
    let Some(head) = t.held(pool, slip) else {
        return refused(SLIP);
    };
    t.vacate(pool, slip);
    t.release(pool, storage, head);
    done(0)
}

/// dup: a new slip on one new piece that shares the rest.
///
/// # Safety
/// As for put.
#[inline(never)]
pub unsafe fn dup(pool: &mut [u8], _storage: &[u8], slip: Slip) -> Answer {
    let t = Tables::of(pool);
    let Some(head) = t.held(pool, slip) else {
        return refused(SLIP);
    };
    let Some(new) = t.vacant(pool) else {
        return refused(SLIPS);
    };
    if head == 0 {
        return t.give(pool, new, 1);
    }
    let Some(piece) = t.free_piece(pool, 0) else {
        return refused(PIECES);
    };
    let at = t.piece(head - 1);
    let (buffer, offset) = (get16(pool, at + BUFFER), get16(pool, at + OFFSET));
    let (length, next) = (get16(pool, at + LENGTH), get16(pool, at + NEXT));
    t.share(pool, next);
    t.take(pool, piece, buffer, offset, length, next);
    t.give(pool, new, piece + 2)
}

/// cut: a new slip on new pieces for a range, on the same buffers.
///
/// # Safety
/// As for put.
#[inline(never)]
pub unsafe fn cut(
    pool: &mut [u8],
    _storage: &[u8],
    slip: Slip,
    offset: u32,
    length: u32,
) -> Answer {
    let t = Tables::of(pool);
    let n = length as usize;
    let Some(head) = t.held(pool, slip) else {
        return refused(SLIP);
    };
    let Some(from) = t.find(pool, head, offset as usize) else {
        return refused(RANGE);
    };
    let Some(pieces) = t.pieces_of(pool, from.link, from.into + n) else {
        return refused(RANGE);
    };
    let Some(new) = t.vacant(pool) else {
        return refused(SLIPS);
    };
    if n == 0 {
        return t.give(pool, new, 1);
    }
    let Some(free) = t.room_for_pieces(pool, pieces) else {
        return refused(PIECES);
    };
    let first = t.copy_pieces(pool, free, from, n, pieces, 0);
    t.give(pool, new, first + 1)
}

/// append: slip `a` reads as a then b, and `b` is vacant at the next serial.
///
/// # Safety
/// As for put.
#[inline(never)]
pub unsafe fn append(pool: &mut [u8], _storage: &mut [u8], a: Slip, b: Slip) -> Answer {
    let t = Tables::of(pool);
    let (Some(head), Some(tail)) = (t.held(pool, a), t.held(pool, b)) else {
        return refused(SLIP);
    };
    if a.number == b.number {
        return refused(SAME);
    }
    if head == 0 || tail == 0 {
        t.vacate(pool, b);
        put16(pool, t.slip(a.number as usize), head + tail + 1);
        return done(0);
    }
    // The own pieces stay: where the first one that is not hangs, its link, and how many there are from it on.
    let mut hook = t.slip(a.number as usize);
    let mut link = head;
    while link != 0 && get16(pool, t.piece(link - 1)) == 1 {
        hook = t.piece(link - 1) + NEXT;
        link = get16(pool, hook);
    }
    let mut pieces = 0;
    let mut after = link;
    while after != 0 {
        pieces += 1;
        after = get16(pool, t.piece(after - 1) + NEXT);
    }
    let mut rest = tail;
    if pieces > 0 {
        let Some(free) = t.room_for_pieces(pool, pieces) else {
            return refused(PIECES);
        };
        rest = t.copy_pieces(pool, free, Place::start(link), usize::MAX, pieces, tail);
    }
    // A slip's entry is its link and 1.
    let entry = usize::from(link == head);
    put16(pool, hook, rest + entry);
    t.vacate(pool, b);
    t.unshare(pool, link);
    done(0)
}

/// drop: the first bytes go.
///
/// # Safety
/// As for put.
#[inline(never)]
pub unsafe fn drop(pool: &mut [u8], storage: &mut [u8], slip: Slip, n: u32) -> Answer {
    let t = Tables::of(pool);
    let Some(head) = t.held(pool, slip) else {
        return refused(SLIP);
    };
    let Some(from) = t.find(pool, head, n as usize) else {
        return refused(RANGE);
    };
    if n == 0 {
        return done(0);
    }
    let entry = t.slip(slip.number as usize);
    if !from.wants_piece() {
        let rest = t.hold(pool, from);
        put16(pool, entry, rest + 1);
        t.release(pool, storage, head);
        return done(0);
    }
    // The piece with the cut stays, whatever the release frees: it isn't own.
    let own = get16(pool, t.piece(head - 1)) == 1;
    let mut free = 0;
    if !own {
        let Some(piece) = t.free_piece(pool, 0) else {
            return refused(PIECES);
        };
        free = piece;
    }
    t.release(pool, storage, head);
    if own {
        // An own head was given back, so one is free.
        free = t.free_piece(pool, 0).unwrap_unchecked();
    }
    let rest = t.renew(pool, from, free);
    put16(pool, entry, rest + 1);
    done(0)
}

/// keep: the first bytes stay.
///
/// # Safety
/// As for put.
#[inline(never)]
pub unsafe fn keep(pool: &mut [u8], storage: &mut [u8], slip: Slip, n: u32) -> Answer {
    let t = Tables::of(pool);
    let Some(head) = t.held(pool, slip) else {
        return refused(SLIP);
    };
    if n == 0 {
        put16(pool, t.slip(slip.number as usize), 1);
        t.release(pool, storage, head);
        return done(0);
    }
    // The walk ends at the last piece kept; `others` counts from the first piece not own, which hangs on `hook`.
    let mut hook = t.slip(slip.number as usize);
    let (mut first_other, mut others, mut bytes) = (head, 0, 0);
    let (mut link, mut left) = (head, n as usize);
    loop {
        if link == 0 {
            return refused(RANGE);
        }
        let at = t.piece(link - 1);
        let length = get16(pool, at + LENGTH);
        let next = get16(pool, at + NEXT);
        if others > 0 || get16(pool, at) != 1 {
            others += 1;
            bytes += length.min(left);
        } else {
            hook = at + NEXT;
            first_other = next;
        }
        if left <= length {
            if left == length && next == 0 {
                return done(0);
            }
            break;
        }
        left -= length;
        link = next;
    }
    if others == 0 {
        put16(pool, hook - NEXT + LENGTH, left);
        put16(pool, hook, 0);
        t.release(pool, storage, first_other);
    } else {
        let Some(free) = t.room_for_pieces(pool, others) else {
            return refused(PIECES);
        };
        let from = Place::start(first_other);
        let first = t.copy_pieces(pool, free, from, bytes, others, 0);
        // A slip's entry is its link and 1.
        let entry = usize::from(first_other == head);
        put16(pool, hook, first + entry);
        t.unshare(pool, first_other);
    }
    done(0)
}

/// pullup: the first bytes come to lie in the first piece.
///
/// # Safety
/// As for put.
#[inline(never)]
pub unsafe fn pullup(pool: &mut [u8], storage: &mut [u8], slip: Slip, n: u32) -> Answer {
    let t = Tables::of(pool);
    let n = n as usize;
    let Some(head) = t.held(pool, slip) else {
        return refused(SLIP);
    };
    if n > SIZE {
        return refused(LONG);
    }
    let Some(from) = t.find(pool, head, n) else {
        return refused(RANGE);
    };
    if n == 0 || n <= get16(pool, t.piece(head - 1) + LENGTH) {
        return done(0);
    }
    // The head lies in front of what stays: own, it is given back, and so is its next where a piece is wanted behind both.
    let at = t.piece(head - 1);
    let two = from.wants_piece();
    let own = get16(pool, at) == 1;
    let enough = own && (!two || get16(pool, t.piece(get16(pool, at + NEXT) - 1)) == 1);
    let (mut front, mut free) = (0, 0);
    if !enough {
        let Some(piece) = t.free_piece(pool, 0) else {
            return refused(PIECES);
        };
        front = piece;
        if two && !own {
            let Some(piece) = t.free_piece(pool, front + 1) else {
                return refused(PIECES);
            };
            free = piece;
        }
    }
    let Some(buffer) = t.free_buffer(pool, 0) else {
        return refused(BUFFERS);
    };
    let bytes = storage.as_mut_ptr();
    t.gather(pool, bytes, Place::start(head), n, bytes.add(SIZE * buffer));
    clear_rest(storage, buffer, n);
    let held = if two { 0 } else { t.hold(pool, from) };
    t.release(pool, storage, head);
    // The lowest numbers, those given back among them.
    if enough {
        front = t.free_piece(pool, 0).unwrap_unchecked();
    }
    if two && own {
        if head - 1 < front {
            (front, free) = (head - 1, front);
        } else {
            free = t.free_piece(pool, front + 1).unwrap_unchecked();
        }
    }
    let rest = if two { t.renew(pool, from, free) } else { held };
    t.take(pool, front, buffer, 0, n, rest);
    put16(pool, t.slip(slip.number as usize), front + 2);
    done(0)
}

/// pack: the chain's bytes are put afresh under the same slip.
///
/// # Safety
/// As for put.
#[inline(never)]
pub unsafe fn pack(pool: &mut [u8], storage: &mut [u8], slip: Slip) -> Answer {
    let t = Tables::of(pool);
    let Some(head) = t.held(pool, slip) else {
        return refused(SLIP);
    };
    if head == 0 || get16(pool, t.piece(head - 1) + NEXT) == 0 {
        return done(0);
    }
    let mut left = t.length(pool, head);
    let wanted = left.div_ceil(SIZE);
    let Some(first) = t.room_for_pieces(pool, wanted) else {
        return refused(PIECES);
    };
    let Some(mut buffer) = t.room_for_buffers(pool, wanted) else {
        return refused(BUFFERS);
    };
    let mut piece = first;
    let mut from = Place::start(head);
    let bytes = storage.as_mut_ptr();
    loop {
        let n = left.min(SIZE);
        from = t.gather(pool, bytes, from, n, bytes.add(SIZE * buffer));
        left -= n;
        if left == 0 {
            clear_rest(storage, buffer, n);
            t.take(pool, piece, buffer, 0, n, 0);
            break;
        }
        let next = t.free_piece(pool, piece + 1).unwrap_unchecked();
        t.take(pool, piece, buffer, 0, n, next + 1);
        piece = next;
        buffer = t.free_buffer(pool, buffer + 1).unwrap_unchecked();
    }
    put16(pool, t.slip(slip.number as usize), first + 2);
    t.release(pool, storage, head);
    done(0)
}

/// length: the chain's byte count.
///
/// # Safety
/// As for put.
#[inline(never)]
pub unsafe fn length(pool: &[u8], _storage: &[u8], slip: Slip) -> Answer {
    let t = Tables::of(pool);
    match t.held(pool, slip) {
        Some(head) => done(t.length(pool, head)),
        None => refused(SLIP),
    }
}

/// read: bytes of the chain to the front of the output.
///
/// # Safety
/// As for put.
#[inline(never)]
pub unsafe fn read(
    pool: &[u8],
    storage: &[u8],
    slip: Slip,
    offset: u32,
    length: u32,
    output: &mut [u8],
) -> Answer {
    let t = Tables::of(pool);
    let n = length as usize;
    let Some(head) = t.held(pool, slip) else {
        return refused(SLIP);
    };
    let Some(from) = t.find(pool, head, offset as usize) else {
        return refused(RANGE);
    };
    if t.pieces_of(pool, from.link, from.into + n).is_none() {
        return refused(RANGE);
    }
    if output.len() < n {
        return refused(NARROW);
    }
    t.gather(pool, storage.as_ptr(), from, n, output.as_mut_ptr());
    done(n)
}

/// show: the first bytes in one stretch, of storage or of the scratch.
///
/// # Safety
/// As for put.
#[inline(never)]
pub unsafe fn show(pool: &[u8], storage: &[u8], slip: Slip, n: u32, scratch: &mut [u8]) -> Shown {
    let shown = |code: u16, number: usize, in_scratch: bool, start: usize| Shown {
        code,
        number: number as u32,
        in_scratch: in_scratch as u16,
        start: start as u32,
    };
    let t = Tables::of(pool);
    let n = n as usize;
    let Some(head) = t.held(pool, slip) else {
        return shown(SLIP, 0, false, 0);
    };
    if n > SIZE {
        return shown(LONG, 0, false, 0);
    }
    if n == 0 {
        return shown(0, 0, false, 0);
    }
    if head == 0 {
        return shown(RANGE, 0, false, 0);
    }
    let at = t.piece(head - 1);
    if n <= get16(pool, at + LENGTH) {
        let start = SIZE * get16(pool, at + BUFFER) + get16(pool, at + OFFSET);
        return shown(0, n, false, start);
    }
    if t.pieces_of(pool, head, n).is_none() {
        return shown(RANGE, 0, false, 0);
    }
    if scratch.len() < n {
        return shown(NARROW, 0, false, 0);
    }
    let from = Place::start(head);
    t.gather(pool, storage.as_ptr(), from, n, scratch.as_mut_ptr());
    shown(0, n, true, 0)
}

/// Writes a record for each piece of the slip's chain, position and length, where there is room for all of them.
#[inline(always)]
unsafe fn write_records(
    pool: &[u8],
    slip: Slip,
    room: usize,
    mut write: impl FnMut(usize, u32, u32),
) -> Answer {
    let t = Tables::of(pool);
    let Some(head) = t.held(pool, slip) else {
        return refused(SLIP);
    };
    let (mut link, mut pieces) = (head, 0);
    while link != 0 {
        pieces += 1;
        link = get16(pool, t.piece(link - 1) + NEXT);
    }
    if room < pieces {
        return refused(NARROW);
    }
    link = head;
    for i in 0..pieces {
        let at = t.piece(link - 1);
        let position = SIZE * get16(pool, at + BUFFER) + get16(pool, at + OFFSET);
        write(i, position as u32, get16(pool, at + LENGTH) as u32);
        link = get16(pool, at + NEXT);
    }
    done(pieces)
}

/// list: the chain's records, two numbers each, to the front of the list.
///
/// # Safety
/// As for put.
#[inline(never)]
pub unsafe fn list(pool: &[u8], _storage: &[u8], slip: Slip, list: &mut [u32]) -> Answer {
    let to = list.as_mut_ptr();
    write_records(pool, slip, list.len() / 2, |i, position, length| {
        *to.add(2 * i) = position;
        *to.add(2 * i + 1) = length;
    })
}

/// stretches: the chain's records to the front of the list.
///
/// # Safety
/// As for put.
#[inline(never)]
pub unsafe fn stretches(pool: &[u8], _storage: &[u8], slip: Slip, list: &mut [Stretch]) -> Answer {
    let to = list.as_mut_ptr();
    write_records(pool, slip, list.len(), |i, position, length| {
        *to.add(i) = Stretch { position, length };
    })
}

/// gather: the bytes of the list's records to the front of the output, for any bytes and numbers.
#[inline(never)]
pub fn gather(storage: &[u8], list: &[u32], output: &mut [u8]) -> Gathered {
    let records = list.chunks_exact(2).map(|r| (r[0] as usize, r[1] as usize));
    let (mut left, mut bad) = (output.len(), false);
    for (position, length) in records.clone() {
        if left < length {
            return Gathered {
                code: NARROW,
                number: 0,
            };
        }
        left -= length;
        bad |= length == 0 || storage.len() < position + length;
    }
    if bad {
        return Gathered {
            code: LIST,
            number: 0,
        };
    }
    let mut to = output.as_mut_ptr();
    for (position, length) in records {
        // Every record lies in storage, and the output takes them all.
        unsafe {
            ptr::copy_nonoverlapping(storage.as_ptr().add(position), to, length);
            to = to.add(length);
        }
    }
    Gathered {
        code: 0,
        number: (output.len() - left) as u64,
    }
}
