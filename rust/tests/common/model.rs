//! The model: document 01's rules with the wire list, the serials, the room of drop and pullup and
//! the cleaned buffers of document 02, done plainly on tables parsed from the lent bytes.
//!
//! A chain is a list of piece numbers, "own" is a length of its front, each call first plans the
//! pieces that it wants and only then builds them. Nothing here is meant to be fast.

use std::{fmt, mem};

/// Bytes of one buffer.
pub const SIZE: u64 = 512;
/// The most buffers, pieces and slips of a pool.
pub const MOST: (u64, u64, u64) = (1_024, 2_048, 256);
/// The version in the header.
pub const VERSION: u64 = 2;
/// The last serial: a vacant slip that has it is spent.
pub const LAST: u64 = 65_535;

pub const DONE: u16 = 0;
pub const COUNTS: u16 = 1;
pub const TORN: u16 = 2;
pub const SLIP: u16 = 3;
pub const SAME: u16 = 4;
pub const LONG: u16 = 5;
pub const RANGE: u16 = 6;
pub const NARROW: u16 = 7;
pub const SLIPS: u16 = 8;
pub const PIECES: u16 = 9;
pub const BUFFERS: u16 = 10;
pub const LIST: u16 = 11;

/// A slip as a caller names it.
#[derive(Clone, Copy, Debug, PartialEq, Eq)]
pub struct Name {
    pub number: u16,
    pub serial: u16,
}

impl Name {
    pub const fn new(number: u16, serial: u16) -> Name {
        Name { number, serial }
    }

    /// The number that is answered for the slip: its own and 65,536 times its serial.
    pub const fn answer(self) -> u64 {
        self.number as u64 + 65_536 * self.serial as u64
    }
}

/// A slip that was not vacated since the opening, by its number alone.
impl From<u16> for Name {
    fn from(number: u16) -> Name {
        Name::new(number, 0)
    }
}

/// Number and serial.
impl From<(u16, u16)> for Name {
    fn from((number, serial): (u16, u16)) -> Name {
        Name::new(number, serial)
    }
}

impl fmt::Display for Name {
    fn fmt(&self, f: &mut fmt::Formatter<'_>) -> fmt::Result {
        write!(f, "{}.{}", self.number, self.serial)
    }
}

/// One call with all that it is lent besides pool and storage.
#[derive(Clone, Debug, PartialEq, Eq)]
pub enum Call {
    Open {
        buffers: u16,
        pieces: u16,
        slips: u16,
    },
    Audit,
    Put {
        data: Vec<u8>,
    },
    Free {
        slip: Name,
    },
    Dup {
        slip: Name,
    },
    Cut {
        slip: Name,
        offset: u32,
        length: u32,
    },
    Append {
        a: Name,
        b: Name,
    },
    Drop {
        slip: Name,
        n: u32,
    },
    Keep {
        slip: Name,
        n: u32,
    },
    Pullup {
        slip: Name,
        n: u32,
    },
    Pack {
        slip: Name,
    },
    Length {
        slip: Name,
    },
    Read {
        slip: Name,
        offset: u32,
        length: u32,
        output: Vec<u8>,
    },
    Show {
        slip: Name,
        n: u32,
        scratch: Vec<u8>,
    },
    List {
        slip: Name,
        list: Vec<u32>,
    },
    /// No call on a pool: it is lent storage, which may be any bytes, and no pool.
    Gather {
        list: Vec<u32>,
        output: Vec<u8>,
    },
    Stretches {
        slip: Name,
        list: Vec<[u32; 2]>,
    },
}

impl Call {
    /// The bytes that the call may write besides pool and storage: output or scratch.
    pub fn lent(&self) -> &[u8] {
        match self {
            Call::Read { output, .. } | Call::Gather { output, .. } => output,
            Call::Show { scratch, .. } => scratch,
            _ => &[],
        }
    }

    /// The slips that the call names, in order.
    pub fn names(&self) -> Vec<Name> {
        match self {
            Call::Free { slip }
            | Call::Dup { slip }
            | Call::Cut { slip, .. }
            | Call::Drop { slip, .. }
            | Call::Keep { slip, .. }
            | Call::Pullup { slip, .. }
            | Call::Pack { slip }
            | Call::Length { slip }
            | Call::Read { slip, .. }
            | Call::Show { slip, .. }
            | Call::List { slip, .. }
            | Call::Stretches { slip, .. } => vec![*slip],
            Call::Append { a, b } => vec![*a, *b],
            Call::Open { .. } | Call::Audit | Call::Put { .. } | Call::Gather { .. } => Vec::new(),
        }
    }

    /// The numbers of the list that the call is lent, two for each record.
    pub fn list(&self) -> Vec<u32> {
        match self {
            Call::List { list, .. } | Call::Gather { list, .. } => list.clone(),
            Call::Stretches { list, .. } => list.concat(),
            _ => Vec::new(),
        }
    }

    /// The call in one line, long data by its length only.
    pub fn brief(&self) -> String {
        match self {
            Call::Put { data } => format!("put of {} bytes", data.len()),
            Call::Read {
                slip,
                offset,
                length,
                output,
            } => format!(
                "read {slip}, {offset}, {length} into {} bytes",
                output.len()
            ),
            Call::Show { slip, n, scratch } => {
                format!("show {slip}, {n} with {} bytes of scratch", scratch.len())
            }
            Call::List { slip, list } => format!("list {slip} into {} numbers", list.len()),
            Call::Stretches { slip, list } => {
                format!("stretches {slip} into {} records", list.len())
            }
            Call::Gather { list, output } => format!(
                "gather of {} numbers, {:?} first, into {} bytes",
                list.len(),
                &list[..list.len().min(16)],
                output.len()
            ),
            other => format!("{other:?}"),
        }
    }
}

/// Where show's bytes stand; their count is the answer's number.
#[derive(Clone, Copy, Debug, PartialEq, Eq)]
pub struct View {
    pub in_scratch: bool,
    pub start: u64,
}

/// The empty start of storage.
pub const NO_VIEW: View = View {
    in_scratch: false,
    start: 0,
};

/// All that a call leaves: its answer, and every byte and number that it was lent.
#[derive(Clone, Debug, PartialEq, Eq)]
pub struct Outcome {
    pub code: u16,
    pub number: u64,
    pub view: View,
    pub pool: Vec<u8>,
    pub storage: Vec<u8>,
    pub lent: Vec<u8>,
    /// The numbers of the lent list, two for each record.
    pub list: Vec<u32>,
}

/// A slip's state.
#[derive(Clone, Copy, Debug, PartialEq, Eq)]
pub enum Slip {
    Vacant,
    Empty,
    Heads(usize),
}

impl Slip {
    /// The piece that the slip heads, if any.
    pub fn head(self) -> Option<usize> {
        match self {
            Slip::Heads(d) => Some(d),
            _ => None,
        }
    }
}

/// A piece's entry.
#[derive(Clone, Copy, Debug, PartialEq, Eq)]
pub struct Piece {
    pub count: u64,
    pub buffer: usize,
    pub offset: u64,
    pub length: u64,
    pub next: Option<usize>,
}

pub const ZERO: Piece = Piece {
    count: 0,
    buffer: 0,
    offset: 0,
    length: 0,
    next: None,
};

/// The pool's tables: any words of slips, serials, pieces and buffer counts, sound or not.
#[derive(Clone, Debug, PartialEq, Eq)]
pub struct Tables {
    pub slips: Vec<Slip>,
    /// For each slip its serial.
    pub serials: Vec<u64>,
    pub pieces: Vec<Piece>,
    pub buffers: Vec<u64>,
}

/// The 16-bit number at a position, low byte first.
fn word(bytes: &[u8], at: usize) -> u64 {
    bytes[at] as u64 + 256 * bytes[at + 1] as u64
}

/// The pool's exact length.
pub fn pool_length(buffers: u64, pieces: u64, slips: u64) -> u64 {
    11 + 4 * slips + 10 * pieces + 2 * buffers
}

/// Whether the three counts lie in their ranges.
fn counts_fit(buffers: u64, pieces: u64, slips: u64) -> bool {
    (1..=MOST.0).contains(&buffers)
        && (1..=MOST.1).contains(&pieces)
        && (1..=MOST.2).contains(&slips)
}

/// Whether both lengths are exactly those that the counts ask.
fn lengths_fit(pool: &[u8], storage: &[u8], buffers: u64, pieces: u64, slips: u64) -> bool {
    pool.len() as u64 == pool_length(buffers, pieces, slips)
        && storage.len() as u64 == SIZE * buffers
}

impl Tables {
    pub fn fresh(buffers: usize, pieces: usize, slips: usize) -> Tables {
        Tables {
            slips: vec![Slip::Vacant; slips],
            serials: vec![0; slips],
            pieces: vec![ZERO; pieces],
            buffers: vec![0; buffers],
        }
    }

    /// The tables, if mark, version, counts and both lengths fit.
    pub fn parse(pool: &[u8], storage: &[u8]) -> Option<Tables> {
        if pool.len() < 11 || &pool[..3] != b"SLP" || word(pool, 3) != VERSION {
            return None;
        }
        let (b, p, s) = (word(pool, 5), word(pool, 7), word(pool, 9));
        if !counts_fit(b, p, s) || !lengths_fit(pool, storage, b, p, s) {
            return None;
        }
        let (b, p, s) = (b as usize, p as usize, s as usize);
        let slip = |i: usize| match word(pool, 11 + 4 * i) {
            0 => Slip::Vacant,
            1 => Slip::Empty,
            more => Slip::Heads(more as usize - 2),
        };
        let serial = |i: usize| word(pool, 11 + 4 * i + 2);
        let piece = |d: usize| {
            let field = |k: usize| word(pool, 11 + 4 * s + 10 * d + 2 * k);
            Piece {
                count: field(0),
                buffer: field(1) as usize,
                offset: field(2),
                length: field(3),
                next: field(4).checked_sub(1).map(|d| d as usize),
            }
        };
        let count = |k: usize| word(pool, 11 + 4 * s + 10 * p + 2 * k);
        Some(Tables {
            slips: (0..s).map(slip).collect(),
            serials: (0..s).map(serial).collect(),
            pieces: (0..p).map(piece).collect(),
            buffers: (0..b).map(count).collect(),
        })
    }

    /// The pool's bytes.
    pub fn bytes(&self) -> Vec<u8> {
        let mut words = vec![
            VERSION,
            self.buffers.len() as u64,
            self.pieces.len() as u64,
            self.slips.len() as u64,
        ];
        for (slip, serial) in self.slips.iter().zip(&self.serials) {
            words.push(match slip {
                Slip::Vacant => 0,
                Slip::Empty => 1,
                Slip::Heads(d) => 2 + *d as u64,
            });
            words.push(*serial);
        }
        for piece in &self.pieces {
            words.push(piece.count);
            words.push(piece.buffer as u64);
            words.push(piece.offset);
            words.push(piece.length);
            words.push(match piece.next {
                None => 0,
                Some(d) => 1 + d as u64,
            });
        }
        words.extend(&self.buffers);
        let mut bytes = b"SLP".to_vec();
        for word in words {
            bytes.extend((word as u16).to_le_bytes());
        }
        bytes
    }

    /// The state of the slip of this number if it is held, whatever its serial.
    pub fn state(&self, number: u16) -> Option<Slip> {
        match self.slips.get(number as usize) {
            None | Some(Slip::Vacant) => None,
            Some(state) => Some(*state),
        }
    }

    /// The named slip's state: its number is below S, it is held, and its serial is the one given.
    pub fn held(&self, name: Name) -> Option<Slip> {
        let state = self.state(name.number)?;
        (self.serials[name.number as usize] == name.serial as u64).then_some(state)
    }

    /// What the slip of a number below S is called now.
    pub fn name(&self, number: u16) -> Name {
        Name::new(number, self.serials[number as usize] as u16)
    }

    /// Whether a slip is vacant at the last serial, and so is not given again.
    pub fn is_spent(&self, slip: usize) -> bool {
        self.slips[slip] == Slip::Vacant && self.serials[slip] == LAST
    }

    /// The chain's piece numbers in order; the pool must be sound.
    pub fn chain(&self, slip: Slip) -> Vec<usize> {
        let mut chain = Vec::new();
        let mut at = slip.head();
        while let Some(d) = at {
            chain.push(d);
            at = self.pieces[d].next;
        }
        chain
    }

    /// For each piece of the chain, the places in the chain where its bytes start and end.
    pub fn spans(&self, chain: &[usize]) -> Vec<(u64, u64)> {
        let mut end = 0;
        chain
            .iter()
            .map(|&d| {
                let start = end;
                end += self.pieces[d].length;
                (start, end)
            })
            .collect()
    }

    /// The chain's length.
    pub fn length(&self, chain: &[usize]) -> u64 {
        chain.iter().map(|&d| self.pieces[d].length).sum()
    }

    /// The length of the chain's first piece, 0 if it has none.
    pub fn first_length(&self, chain: &[usize]) -> u64 {
        chain.first().map_or(0, |d| self.pieces[*d].length)
    }

    /// Where a buffer starts in storage.
    pub fn buffer_start(&self, b: usize) -> u64 {
        SIZE * b as u64
    }

    /// Where a piece's bytes start in storage.
    pub fn start(&self, d: usize) -> u64 {
        self.buffer_start(self.pieces[d].buffer) + self.pieces[d].offset
    }

    /// The chain's bytes.
    pub fn read(&self, storage: &[u8], chain: &[usize]) -> Vec<u8> {
        let mut bytes = Vec::new();
        for &d in chain {
            let from = &storage[self.start(d) as usize..];
            bytes.extend(&from[..self.pieces[d].length as usize]);
        }
        bytes
    }

    /// Whether there is such a piece and its count is above 0.
    pub fn is_used(&self, d: usize) -> bool {
        d < self.pieces.len() && self.pieces[d].count > 0
    }

    /// The pieces in use.
    pub fn used(&self) -> impl Iterator<Item = &Piece> {
        self.pieces.iter().filter(|piece| piece.count > 0)
    }

    /// Where a piece lies.
    pub fn place(&self, d: usize) -> Place {
        let piece = &self.pieces[d];
        Place {
            buffer: piece.buffer,
            offset: piece.offset,
            length: piece.length,
        }
    }

    /// Where the pieces lie, in order.
    pub fn places(&self, pieces: &[usize]) -> Vec<Place> {
        pieces.iter().map(|d| self.place(*d)).collect()
    }
}

/// The numbers free for a call, lowest first.
pub struct Room {
    pub slips: Vec<usize>,
    pub pieces: Vec<usize>,
    pub buffers: Vec<usize>,
}

/// A stretch of a buffer that a new piece is to lie on.
#[derive(Clone, Copy)]
pub struct Place {
    pub buffer: usize,
    pub offset: u64,
    pub length: u64,
}

/// What holds a reference to a piece.
#[derive(Clone, Copy)]
pub enum Holder {
    Slip(usize),
    Piece(usize),
}

/// What drop of n leaves: perhaps a piece shortened in place, perhaps a new piece, then the rest.
pub struct Left {
    pub shortened: Option<(usize, u64)>,
    pub places: Vec<Place>,
    pub then: Option<usize>,
}

/// What a call does once no code applies.
pub struct Done {
    pub number: u64,
    /// The new tables, if they change.
    pub tables: Option<Tables>,
    /// Bytes to be set in storage: where they start, and the bytes.
    pub fills: Vec<(u64, Vec<u8>)>,
    /// Bytes for the front of the lent output or scratch.
    pub copied: Vec<u8>,
    /// Numbers for the front of the lent list.
    pub listed: Vec<u32>,
    pub view: View,
}

/// What a call does, or the lowest code that applies.
pub type Judged = Result<Done, u16>;

impl Done {
    pub fn nothing(number: u64) -> Done {
        Done {
            number,
            tables: None,
            fills: Vec::new(),
            copied: Vec::new(),
            listed: Vec::new(),
            view: NO_VIEW,
        }
    }

    pub fn changed(number: u64, tables: Tables) -> Done {
        Done {
            tables: Some(tables),
            ..Done::nothing(number)
        }
    }

    /// Writes everything that the call changes.
    fn write(self, after: &mut Outcome) {
        after.number = self.number;
        after.view = self.view;
        if let Some(tables) = self.tables {
            after.pool = tables.bytes();
        }
        for (start, bytes) in self.fills {
            after.storage[start as usize..][..bytes.len()].copy_from_slice(&bytes);
        }
        after.lent[..self.copied.len()].copy_from_slice(&self.copied);
        after.list[..self.listed.len()].copy_from_slice(&self.listed);
    }
}

pub fn refuse_if(applies: bool, code: u16) -> Result<(), u16> {
    if applies {
        Err(code)
    } else {
        Ok(())
    }
}

/// The rules as the papers have them.
#[derive(Clone, Copy)]
pub struct Paper;

pub const TRUE: Paper = Paper;

impl Rules for Paper {}

impl Paper {
    /// One call on any bytes: its answer and every byte after it.
    pub fn step(&self, pool: &[u8], storage: &[u8], call: &Call) -> Outcome {
        Rules::step(self, pool, storage, call)
    }
}

/// The rules, one function each; they call each other by `self`, so that any one can be replaced.
pub trait Rules {
    /// One call on any bytes: its answer and every byte after it.
    fn step(&self, pool: &[u8], storage: &[u8], call: &Call) -> Outcome {
        let mut after = Outcome {
            code: DONE,
            number: 0,
            view: NO_VIEW,
            pool: pool.to_vec(),
            storage: storage.to_vec(),
            lent: call.lent().to_vec(),
            list: call.list(),
        };
        match self.judge(pool, storage, call) {
            // Any other code comes with number 0 and leaves everything unchanged.
            Err(code) => after.code = code,
            Ok(done) => done.write(&mut after),
        }
        after
    }

    /// What the call does, or the lowest code that applies.
    fn judge(&self, pool: &[u8], storage: &[u8], call: &Call) -> Judged {
        match call {
            Call::Open {
                buffers,
                pieces,
                slips,
            } => self.open(pool, storage, *buffers, *pieces, *slips),
            Call::Gather { list, output } => self.gather(storage, list, output.len() as u64),
            _ => {
                let tables = Tables::parse(pool, storage).ok_or(TORN)?;
                refuse_if(!self.is_sound(&tables), TORN)?;
                let mut done = self.operate(tables.clone(), storage, call)?;
                self.clean(&tables, &mut done);
                Ok(done)
            }
        }
    }

    /// What the call does on a sound pool, or the lowest code from 3 on that applies.
    fn operate(&self, t: Tables, storage: &[u8], call: &Call) -> Judged {
        match call {
            Call::Open { .. } | Call::Gather { .. } => unreachable!("judged above"),
            Call::Audit => Ok(Done::nothing(0)),
            Call::Put { data } => self.put(t, data),
            Call::Free { slip } => self.free(t, *slip),
            Call::Dup { slip } => self.dup(t, *slip),
            Call::Cut {
                slip,
                offset,
                length,
            } => self.cut(t, *slip, *offset, *length),
            Call::Append { a, b } => self.append(t, *a, *b),
            Call::Drop { slip, n } => self.drop(t, *slip, *n as u64),
            Call::Keep { slip, n } => self.keep(t, *slip, *n as u64),
            Call::Pullup { slip, n } => self.pullup(t, storage, *slip, *n as u64),
            Call::Pack { slip } => self.pack(t, storage, *slip),
            Call::Length { slip } => {
                let chain = t.chain(self.named(&t, *slip)?);
                Ok(Done::nothing(t.length(&chain)))
            }
            Call::Read {
                slip,
                offset,
                length,
                output,
            } => self.read(t, storage, *slip, *offset, *length, output.len()),
            Call::Show { slip, n, scratch } => {
                self.show(t, storage, *slip, *n as u64, scratch.len())
            }
            Call::List { slip, list } => self.list(t, *slip, list.len()),
            Call::Stretches { slip, list } => self.list_in_records(t, *slip, list.len()),
        }
    }

    // A pool is sound when mark, version, counts and both lengths fit, and:

    fn is_sound(&self, t: &Tables) -> bool {
        let mut used = (0..t.pieces.len()).filter(|d| t.is_used(*d));
        t.pieces.iter().all(|piece| self.is_well_formed(t, piece))
            && t.slips.iter().all(|slip| self.has_good_head(t, *slip))
            && self.are_counted(t, &self.references(t))
            && used.all(|d| self.never_comes_back(t, d))
            && t.buffers == self.holders(t)
    }

    /// Count 0: all zero. Any other: buffer below B, length at least 1, end at most 512, good next.
    fn is_well_formed(&self, t: &Tables, piece: &Piece) -> bool {
        if piece.count == 0 {
            return *piece == ZERO;
        }
        piece.buffer < t.buffers.len()
            && piece.length >= 1
            && self.end_in_buffer(piece) <= SIZE
            && self.is_good_next(t, piece.next)
    }

    /// Where a piece ends in its buffer: offset + length, as whole numbers.
    fn end_in_buffer(&self, piece: &Piece) -> u64 {
        piece.offset + piece.length
    }

    /// No next, or a next below P with a count above 0.
    fn is_good_next(&self, t: &Tables, next: Option<usize>) -> bool {
        next.map_or(true, |d| t.is_used(d))
    }

    /// A slip is vacant, empty or heads a piece below P with a count above 0.
    fn has_good_head(&self, t: &Tables, slip: Slip) -> bool {
        slip.head().map_or(true, |d| t.is_used(d))
    }

    /// For each piece the number of slips heading it plus pieces in use whose next it is.
    fn references(&self, t: &Tables) -> Vec<u64> {
        let mut references = vec![0; t.pieces.len()];
        let heads = t.slips.iter().filter_map(|slip| slip.head());
        for d in heads.chain(t.used().filter_map(|piece| piece.next)) {
            references[d] += 1;
        }
        references
    }

    /// A piece's count is the number of its references.
    fn are_counted(&self, t: &Tables, references: &[u64]) -> bool {
        let counts = t.pieces.iter().map(|piece| piece.count);
        counts.eq(references.iter().copied())
    }

    /// Following next never comes back to a piece already met, reached from a slip or not: P pieces are all that can be met.
    fn never_comes_back(&self, t: &Tables, first: usize) -> bool {
        let mut at = Some(first);
        let mut met = 0;
        while let Some(d) = at {
            if met == t.pieces.len() {
                return false;
            }
            met += 1;
            at = t.pieces[d].next;
        }
        true
    }

    /// For each buffer the number of pieces in use lying on it.
    fn holders(&self, t: &Tables) -> Vec<u64> {
        let mut holders = vec![0; t.buffers.len()];
        for piece in t.used() {
            holders[piece.buffer] += 1;
        }
        holders
    }

    // Room is counted at entry, but for the pieces of drop and pullup; new numbers are the lowest free.

    fn room(&self, t: &Tables) -> Room {
        Room {
            slips: (0..t.slips.len())
                .filter(|i| t.slips[*i] == Slip::Vacant && !self.is_spent(t, *i))
                .collect(),
            pieces: (0..t.pieces.len())
                .filter(|d| t.pieces[*d].count == 0)
                .collect(),
            buffers: (0..t.buffers.len())
                .filter(|b| t.buffers[*b] == 0)
                .collect(),
        }
    }

    /// Codes 8 to 10: more new slips, pieces or buffers wanted than free.
    fn ask(&self, room: &Room, slips: u64, pieces: u64, buffers: u64) -> Result<(), u16> {
        refuse_if(slips > room.slips.len() as u64, SLIPS)?;
        refuse_if(pieces > room.pieces.len() as u64, PIECES)?;
        refuse_if(buffers > room.buffers.len() as u64, BUFFERS)
    }

    /// Whether a vacant slip is not given again.
    fn is_spent(&self, t: &Tables, slip: usize) -> bool {
        t.is_spent(slip)
    }

    // What the operations are made of.

    /// The named slip's state, or code 3.
    fn named(&self, t: &Tables, name: Name) -> Result<Slip, u16> {
        t.held(name).ok_or(SLIP)
    }

    /// The number that is answered for a slip just given.
    fn answer(&self, t: &Tables, slip: usize) -> u64 {
        t.name(slip as u16).answer()
    }

    /// The slip is vacant, and its serial is older.
    fn vacate(&self, t: &mut Tables, slip: usize) {
        t.slips[slip] = Slip::Vacant;
        t.serials[slip] = self.older(t.serials[slip]);
    }

    /// The serial of a slip once it is vacated: 1 more, never past the last.
    fn older(&self, serial: u64) -> u64 {
        (serial + 1).min(LAST)
    }

    /// How many pieces at the chain's front are own: they and all before them have count 1.
    fn own(&self, t: &Tables, chain: &[usize]) -> usize {
        let once = |d: &&usize| t.pieces[**d].count == 1;
        chain.iter().take_while(once).count()
    }

    /// Whether the chain's i-th piece is own.
    fn is_own(&self, t: &Tables, chain: &[usize], i: usize) -> bool {
        i < self.own(t, chain)
    }

    /// Takes 1 from the count; only at 0 from the buffer too, zeroes the piece, releases its next. A
    /// buffer whose count comes to 0 is cleaned when the call has copied what it copies.
    fn release(&self, t: &mut Tables, d: usize) {
        t.pieces[d].count -= 1;
        if t.pieces[d].count > 0 {
            return;
        }
        let Piece { buffer, next, .. } = t.pieces[d];
        t.buffers[buffer] -= 1;
        t.pieces[d] = ZERO;
        if let Some(next) = next {
            self.release(t, next);
        }
    }

    /// The buffers whose count was above 0 before the call and has come to 0.
    fn given_back(&self, before: &Tables, now: &Tables) -> Vec<usize> {
        let counts = before.buffers.iter().zip(&now.buffers).enumerate();
        let given = counts.filter(|(_, (was, is))| **was > 0 && **is == 0);
        given.map(|(b, _)| b).collect()
    }

    /// Zeroes every byte of each buffer given back, whatever the call; what the call copies was read before.
    fn clean(&self, before: &Tables, done: &mut Done) {
        if let Some(now) = &done.tables {
            let given = self.given_back(before, now).into_iter();
            let zeros = given.map(|b| (now.buffer_start(b), vec![0; SIZE as usize]));
            done.fills.extend(zeros);
        }
    }

    /// Lets a holder refer to another piece or none: the new reference is held before the old goes.
    fn refer(&self, t: &mut Tables, holder: Holder, to: Option<usize>) {
        if let Some(d) = to {
            t.pieces[d].count += 1;
        }
        let old = match holder {
            Holder::Slip(s) => {
                let new = to.map_or(Slip::Empty, Slip::Heads);
                mem::replace(&mut t.slips[s], new).head()
            }
            Holder::Piece(d) => mem::replace(&mut t.pieces[d].next, to),
        };
        if let Some(d) = old {
            self.release(t, d);
        }
    }

    /// Builds a new piece for each place, `then` behind the last; nothing refers to the first yet.
    fn build(
        &self,
        t: &mut Tables,
        room: &Room,
        places: &[Place],
        then: Option<usize>,
    ) -> Option<usize> {
        let numbers = &room.pieces[..places.len()];
        let mut head = then;
        for (place, d) in places.iter().zip(numbers).rev() {
            t.buffers[place.buffer] += 1;
            t.pieces[*d] = Piece {
                count: 0,
                buffer: place.buffer,
                offset: place.offset,
                length: place.length,
                next: None,
            };
            self.refer(t, Holder::Piece(*d), head);
            head = Some(*d);
        }
        head
    }

    /// The data in portions of 512, each full but the last.
    fn portions<'a>(&self, data: &'a [u8]) -> Vec<&'a [u8]> {
        data.chunks(SIZE as usize).collect()
    }

    /// The bytes of a fresh buffer: the data, then zeros.
    fn filled(&self, data: &[u8]) -> Vec<u8> {
        let mut bytes = data.to_vec();
        bytes.resize(SIZE as usize, 0);
        bytes
    }

    /// Puts data into fresh pieces and buffers under a slip, and releases what the slip headed.
    fn put_under(&self, mut t: Tables, room: &Room, slip: usize, data: &[u8]) -> Done {
        let mut places = Vec::new();
        let mut fills = Vec::new();
        for (portion, &buffer) in self.portions(data).iter().zip(&room.buffers) {
            places.push(Place {
                buffer,
                offset: 0,
                length: portion.len() as u64,
            });
            fills.push((t.buffer_start(buffer), self.filled(portion)));
        }
        let head = self.build(&mut t, room, &places, None);
        self.refer(&mut t, Holder::Slip(slip), head);
        Done {
            fills,
            ..Done::changed(0, t)
        }
    }

    /// A new slip on new pieces for these places, with `then` behind them; answers the slip.
    fn new_chain(&self, mut t: Tables, places: &[Place], then: Option<usize>) -> Judged {
        let room = self.room(&t);
        self.ask(&room, 1, places.len() as u64, 0)?;
        let slip = room.slips[0];
        let head = self.build(&mut t, &room, places, then);
        self.refer(&mut t, Holder::Slip(slip), head);
        Ok(Done::changed(self.answer(&t, slip), t))
    }

    /// Behind the own pieces come new ones for these places, then `then`; the old reference goes.
    fn replace(
        &self,
        t: &mut Tables,
        slip: u16,
        own: &[usize],
        places: &[Place],
        then: Option<usize>,
    ) -> Result<(), u16> {
        let room = self.room(t);
        self.ask(&room, 0, places.len() as u64, 0)?;
        let rest = self.build(t, &room, places, then);
        let holder = match own.last() {
            None => Holder::Slip(slip as usize),
            Some(d) => Holder::Piece(*d),
        };
        self.refer(t, holder, rest);
        Ok(())
    }

    // The operations.

    /// Writes the fresh pool, every serial 0; storage is unchanged, old bytes are never looked at.
    fn open(&self, pool: &[u8], storage: &[u8], buffers: u16, pieces: u16, slips: u16) -> Judged {
        let (b, p, s) = (buffers as u64, pieces as u64, slips as u64);
        refuse_if(!counts_fit(b, p, s), COUNTS)?;
        refuse_if(!lengths_fit(pool, storage, b, p, s), COUNTS)?;
        let fresh = Tables::fresh(b as usize, p as usize, s as usize);
        Ok(Done::changed(0, fresh))
    }

    /// As many fresh pieces as the data has portions, under a new slip; answers the slip.
    fn put(&self, t: Tables, data: &[u8]) -> Judged {
        let room = self.room(&t);
        let wanted = self.portions(data).len() as u64;
        self.ask(&room, 1, wanted, wanted)?;
        let slip = room.slips[0];
        Ok(Done {
            number: self.answer(&t, slip),
            ..self.put_under(t, &room, slip, data)
        })
    }

    /// Releases the head; the slip is vacant.
    fn free(&self, mut t: Tables, slip: Name) -> Judged {
        self.named(&t, slip)?;
        self.refer(&mut t, Holder::Slip(slip.number as usize), None);
        self.vacate(&mut t, slip.number as usize);
        Ok(Done::changed(0, t))
    }

    /// A new slip on one new piece equal to the head, sharing its next and buffer.
    fn dup(&self, t: Tables, slip: Name) -> Judged {
        let chain = t.chain(self.named(&t, slip)?);
        let head: Vec<Place> = t.places(&chain).into_iter().take(1).collect();
        self.new_chain(t, &head, chain.get(1).copied())
    }

    /// A new slip on one new piece for each piece that overlaps the range, on the same buffers.
    fn cut(&self, t: Tables, slip: Name, offset: u32, length: u32) -> Judged {
        let chain = t.chain(self.named(&t, slip)?);
        let (from, to) = (offset as u64, self.end(offset, length));
        refuse_if(to > t.length(&chain), RANGE)?;
        let mut places = Vec::new();
        for (place, span) in t.places(&chain).into_iter().zip(t.spans(&chain)) {
            if self.overlaps(span, (from, to)) {
                let (low, high) = (span.0.max(from), span.1.min(to));
                places.push(Place {
                    buffer: place.buffer,
                    offset: place.offset + (low - span.0),
                    length: high - low,
                });
            }
        }
        self.new_chain(t, &places, None)
    }

    /// Whether two stretches of a chain have a byte in common.
    fn overlaps(&self, span: (u64, u64), range: (u64, u64)) -> bool {
        span.0.max(range.0) < span.1.min(range.1)
    }

    /// The end of the asked bytes, as whole numbers.
    fn end(&self, offset: u32, length: u32) -> u64 {
        offset as u64 + length as u64
    }

    /// a reads as a then b; b is vacant. If either is empty, no piece is needed.
    fn append(&self, mut t: Tables, a: Name, b: Name) -> Judged {
        let state_a = self.named(&t, a)?;
        let state_b = self.named(&t, b)?;
        refuse_if(a.number == b.number, SAME)?;
        let (a, b) = (a.number, b.number);
        match (state_a, state_b.head()) {
            // a takes b's head, or stays empty with it.
            (Slip::Empty, _) => t.slips[a as usize] = state_b,
            // a stays.
            (_, None) => {}
            (_, Some(head)) => {
                let chain = t.chain(state_a);
                let (own, others) = chain.split_at(self.own(&t, &chain));
                let places = t.places(others);
                self.replace(&mut t, a, own, &places, Some(head))?;
                // The reference that b held goes.
                self.refer(&mut t, Holder::Slip(b as usize), None);
            }
        }
        self.vacate(&mut t, b as usize);
        Ok(Done::changed(0, t))
    }

    /// The first n bytes go: 0 changes nothing, the whole length leaves the slip empty.
    fn drop(&self, mut t: Tables, slip: Name, n: u64) -> Judged {
        let chain = t.chain(self.named(&t, slip)?);
        refuse_if(n > t.length(&chain), RANGE)?;
        if n == 0 {
            return Ok(Done::nothing(0));
        }
        let left = self.left_by_drop(&t, &chain, n);
        self.shorten_front(&mut t, left.shortened);
        let room = self.give_back_front(&mut t, slip.number, &left);
        self.ask(&room, 0, left.places.len() as u64, 0)?;
        let head = self.build(&mut t, &room, &left.places, left.then);
        self.refer(&mut t, Holder::Slip(slip.number as usize), head);
        Ok(Done::changed(0, t))
    }

    /// What drop of n leaves of a chain, n above 0 and at most the length.
    fn left_by_drop(&self, t: &Tables, chain: &[usize], n: u64) -> Left {
        let mut left = Left {
            shortened: None,
            places: Vec::new(),
            then: None,
        };
        // The piece that holds byte n, if any is left.
        let spans = t.spans(chain);
        let holds_n = |(start, end): &(u64, u64)| *start <= n && n < *end;
        let Some(i) = spans.iter().position(holds_n) else {
            return left;
        };
        let by = n - spans[i].0;
        if by == 0 {
            left.then = Some(chain[i]);
        } else if self.is_own(t, chain, i) {
            left.shortened = Some((chain[i], by));
            left.then = Some(chain[i]);
        } else {
            let place = t.place(chain[i]);
            left.places.push(Place {
                buffer: place.buffer,
                offset: place.offset + by,
                length: place.length - by,
            });
            left.then = t.pieces[chain[i]].next;
        }
        left
    }

    /// Takes the first bytes of a piece away in place.
    fn shorten_front(&self, t: &mut Tables, shortened: Option<(usize, u64)>) {
        if let Some((d, by)) = shortened {
            t.pieces[d].offset += by;
            t.pieces[d].length -= by;
        }
    }

    /// The slip holds what stays, and its old head is released: the pieces that this frees are room, the buffers are not.
    fn give_back_front(&self, t: &mut Tables, slip: u16, left: &Left) -> Room {
        let entry = self.room(t);
        self.refer(t, Holder::Slip(slip as usize), left.then);
        Room {
            pieces: self.room(t).pieces,
            ..entry
        }
    }

    /// The first n bytes stay: the whole length changes nothing, 0 empties.
    fn keep(&self, mut t: Tables, slip: Name, n: u64) -> Judged {
        let chain = t.chain(self.named(&t, slip)?);
        let whole = t.length(&chain);
        refuse_if(n > whole, RANGE)?;
        if n == whole {
            return Ok(Done::nothing(0));
        }
        if n == 0 {
            self.refer(&mut t, Holder::Slip(slip.number as usize), None);
            return Ok(Done::changed(0, t));
        }
        // The last piece kept holds byte n - 1.
        let spans = t.spans(&chain);
        let holds_last = |(start, end): &(u64, u64)| *start < n && n <= *end;
        let last = spans.iter().position(holds_last).expect("0 < n < length");
        let kept = n - spans[last].0;
        if self.is_own(&t, &chain, last) {
            t.pieces[chain[last]].length = kept;
            self.refer(&mut t, Holder::Piece(chain[last]), None);
        } else {
            // From the first piece not own to the last one kept, each is replaced.
            let own = self.own(&t, &chain);
            let mut places = t.places(&chain[own..=last]);
            places.last_mut().expect("the last one kept").length = kept;
            self.replace(&mut t, slip.number, &chain[..own], &places, None)?;
        }
        Ok(Done::changed(0, t))
    }

    /// If the first piece has n bytes or n is 0, nothing changes.
    fn pullup(&self, t: Tables, storage: &[u8], slip: Name, n: u64) -> Judged {
        let chain = t.chain(self.named(&t, slip)?);
        refuse_if(self.is_long(n), LONG)?;
        refuse_if(n > t.length(&chain), RANGE)?;
        if n == 0 || n <= t.first_length(&chain) {
            return Ok(Done::nothing(0));
        }
        self.pull(t, storage, slip.number, n)
    }

    /// Code 5: more than one buffer takes.
    fn is_long(&self, n: u64) -> bool {
        n > SIZE
    }

    /// The first n bytes on a new piece and buffer, before what drop of n would leave.
    fn pull(&self, mut t: Tables, storage: &[u8], slip: u16, n: u64) -> Judged {
        let chain = t.chain(t.slips[slip as usize]);
        let left = self.left_by_drop(&t, &chain, n);
        let bytes = self.filled(&t.read(storage, &chain)[..n as usize]);
        self.shorten_front(&mut t, left.shortened);
        let room = self.give_back_front(&mut t, slip, &left);
        self.ask(&room, 0, 1 + left.places.len() as u64, 1)?;
        let buffer = room.buffers[0];
        let front = Place {
            buffer,
            offset: 0,
            length: n,
        };
        let places = [vec![front], left.places].concat();
        let head = self.build(&mut t, &room, &places, left.then);
        self.refer(&mut t, Holder::Slip(slip as usize), head);
        Ok(Done {
            fills: vec![(t.buffer_start(buffer), bytes)],
            ..Done::changed(0, t)
        })
    }

    /// A chain of at most one piece stays; otherwise its bytes are put afresh under the same slip.
    fn pack(&self, t: Tables, storage: &[u8], slip: Name) -> Judged {
        let chain = t.chain(self.named(&t, slip)?);
        if chain.len() <= 1 {
            return Ok(Done::nothing(0));
        }
        let bytes = t.read(storage, &chain);
        let room = self.room(&t);
        let wanted = self.portions(&bytes).len() as u64;
        self.ask(&room, 0, wanted, wanted)?;
        Ok(self.put_under(t, &room, slip.number as usize, &bytes))
    }

    /// The asked bytes to the front of the output; answers their count.
    fn read(
        &self,
        t: Tables,
        storage: &[u8],
        slip: Name,
        offset: u32,
        length: u32,
        output: usize,
    ) -> Judged {
        let chain = t.chain(self.named(&t, slip)?);
        refuse_if(self.end(offset, length) > t.length(&chain), RANGE)?;
        refuse_if((output as u64) < length as u64, NARROW)?;
        let bytes = t.read(storage, &chain).into_iter();
        Ok(Done {
            copied: bytes.skip(offset as usize).take(length as usize).collect(),
            ..Done::nothing(length as u64)
        })
    }

    /// The first n bytes in one stretch: in storage if the first piece has them, else in scratch.
    fn show(&self, t: Tables, storage: &[u8], slip: Name, n: u64, scratch: usize) -> Judged {
        let chain = t.chain(self.named(&t, slip)?);
        refuse_if(self.is_long(n), LONG)?;
        refuse_if(n > t.length(&chain), RANGE)?;
        if n == 0 {
            return Ok(Done::nothing(0));
        }
        if n <= t.first_length(&chain) {
            let view = View {
                in_scratch: false,
                start: t.start(chain[0]),
            };
            return Ok(Done {
                view,
                ..Done::nothing(n)
            });
        }
        refuse_if((scratch as u64) < n, NARROW)?;
        Ok(Done {
            copied: t.read(storage, &chain)[..n as usize].to_vec(),
            view: View {
                in_scratch: true,
                start: 0,
            },
            ..Done::nothing(n)
        })
    }

    // The wire list and its reader.

    /// The records of the slip's chain, where so many numbers take all of them.
    fn list(&self, t: Tables, slip: Name, numbers: usize) -> Judged {
        let chain = t.chain(self.named(&t, slip)?);
        let records = self.records(&t, &chain);
        refuse_if(records.len() > numbers / 2, NARROW)?;
        Ok(Done {
            listed: records.concat(),
            ..Done::nothing(records.len() as u64)
        })
    }

    /// stretches: as list, each record taking the place of two numbers.
    fn list_in_records(&self, t: Tables, slip: Name, records: usize) -> Judged {
        self.list(t, slip, 2 * records)
    }

    /// One record for each piece in chain order: position in storage, then length.
    fn records(&self, t: &Tables, chain: &[usize]) -> Vec<[u32; 2]> {
        let record = |d: &usize| [t.start(*d) as u32, t.pieces[*d].length as u32];
        chain.iter().map(record).collect()
    }

    /// gather: the bytes of the list's records, from storage alone.
    fn gather(&self, storage: &[u8], list: &[u32], output: u64) -> Judged {
        let records = pairs(list);
        let sum = self.sum(&records);
        let amiss = |record: &(u64, u64)| self.is_amiss(storage, *record);
        refuse_if(sum > output, NARROW)?;
        refuse_if(records.iter().any(amiss), LIST)?;
        let mut copied = Vec::new();
        for (position, length) in records {
            let from = storage.iter().skip(position as usize);
            copied.extend(from.take(length as usize));
        }
        Ok(Done {
            copied,
            ..Done::nothing(sum)
        })
    }

    /// All lengths as a whole number: of as many as memory holds it stays below 64 bits.
    fn sum(&self, records: &[(u64, u64)]) -> u64 {
        records.iter().map(|(_, length)| length).sum()
    }

    /// Whether a record is of no length or leaves storage.
    fn is_amiss(&self, storage: &[u8], (position, length): (u64, u64)) -> bool {
        length == 0 || position + length > storage.len() as u64
    }
}

/// The records of a list, position and length; a lone last number is none.
pub fn pairs(list: &[u32]) -> Vec<(u64, u64)> {
    list.chunks_exact(2)
        .map(|two| (two[0] as u64, two[1] as u64))
        .collect()
}
