//! Seeded numbers, pool shapes, and random calls with arguments at the borders.

use super::model::{pool_length, Call, Name, Slip, Tables, LAST, MOST};

/// Splitmix64: the same seed gives the same numbers everywhere.
pub struct Random {
    state: u64,
}

impl Random {
    pub fn new(seed: u64) -> Random {
        Random { state: seed }
    }

    pub fn number(&mut self) -> u64 {
        self.state = self.state.wrapping_add(0x9E37_79B9_7F4A_7C15);
        let mut z = self.state;
        z = (z ^ (z >> 30)).wrapping_mul(0xBF58_476D_1CE4_E5B9);
        z = (z ^ (z >> 27)).wrapping_mul(0x94D0_49BB_1331_11EB);
        z ^ (z >> 31)
    }

    /// A number below `limit`, which is above 0.
    pub fn below(&mut self, limit: u64) -> u64 {
        self.number() % limit
    }

    /// A number from `low` to `high`, both included.
    pub fn between(&mut self, low: u64, high: u64) -> u64 {
        low + self.below(high - low + 1)
    }

    /// True once in `times`.
    pub fn once_in(&mut self, times: u64) -> bool {
        self.below(times) == 0
    }

    pub fn pick<T: Copy>(&mut self, from: &[T]) -> T {
        from[self.below(from.len() as u64) as usize]
    }

    pub fn bytes(&mut self, length: usize) -> Vec<u8> {
        let mut bytes = Vec::with_capacity(length + 8);
        while bytes.len() < length {
            bytes.extend(self.number().to_le_bytes());
        }
        bytes.truncate(length);
        bytes
    }

    /// Bytes of which none is zero, so that each that is cleaned is seen to change.
    pub fn dirt(&mut self, length: usize) -> Vec<u8> {
        let bytes = self.bytes(length).into_iter();
        bytes.map(|byte| byte.max(1)).collect()
    }

    pub fn numbers(&mut self, length: usize) -> Vec<u32> {
        (0..length).map(|_| self.number() as u32).collect()
    }
}

/// Buffers, pieces and slips of a pool.
pub type Shape = (u16, u16, u16);

/// The shape of the largest pool.
pub const LARGEST: Shape = (MOST.0 as u16, MOST.1 as u16, MOST.2 as u16);

/// Shapes that are always tried; the last ones are around the sizes at which the audit takes more counters.
pub const SHAPES: &[Shape] = &[
    (1, 1, 1),
    (1, 1, 2),
    (1, 2, 1),
    (2, 1, 2),
    (1, 8, 4),
    (2, 3, 3),
    (3, 4, 2),
    (4, 6, 4),
    (2, 12, 6),
    (6, 10, 5),
    (8, 16, 8),
    (12, 40, 10),
    (32, 48, 16),
    (3, 256, 64),
    (128, 130, 9),
    (128, 256, 64),
    (129, 256, 9),
    (128, 257, 9),
];

/// Shapes at the limits, where each call is dear.
pub const LARGE: &[Shape] = &[
    (3, LARGEST.1, LARGEST.2),
    (LARGEST.0, 1_030, 9),
    (1, LARGEST.1, 2),
    LARGEST,
];

/// A shape: mostly small, now and then a large one, where lists are longer and each call dearer.
pub fn shape(random: &mut Random) -> Shape {
    match random.below(1_000) {
        0 => random.pick(LARGE),
        1..=4 => random.pick(&SHAPES[11..]),
        5..=399 => random.pick(&SHAPES[..11]),
        400..=449 => (
            random.between(1, 40) as u16,
            random.between(1, 60) as u16,
            random.between(1, 20) as u16,
        ),
        // Few slips, few pieces or few buffers, so that each of them runs out first somewhere.
        450..=649 => (
            random.between(4, 12) as u16,
            random.between(2, 9) as u16,
            random.between(6, 14) as u16,
        ),
        650..=749 => (
            random.between(1, 4) as u16,
            random.between(8, 24) as u16,
            random.between(6, 14) as u16,
        ),
        // Room enough for long chains that share their pieces.
        750..=899 => (
            random.between(5, 14) as u16,
            random.between(18, 44) as u16,
            random.between(7, 16) as u16,
        ),
        _ => (
            random.between(1, 10) as u16,
            random.between(1, 20) as u16,
            random.between(1, 9) as u16,
        ),
    }
}

/// Random bytes for pool and storage, of the lengths that open asks; none of storage is zero.
pub fn unopened(random: &mut Random, shape: Shape) -> (Vec<u8>, Vec<u8>) {
    let length = pool_length(shape.0 as u64, shape.1 as u64, shape.2 as u64);
    (
        random.bytes(length as usize),
        random.dirt(512 * shape.0 as usize),
    )
}

/// How often each kind of call comes in one sequence, so that some fill the pool and some drain it.
pub struct Mood {
    weights: [u64; 16],
    /// Puts of at most this many bytes, but for the borders.
    put_up_to: u64,
    /// Once in this many a wild argument is taken.
    wild: u64,
    /// Once in this many all free pieces are taken or, in a full table, some are wanted by drop and pullup; 0 for never.
    crowded: u64,
    worn: Worn,
    /// Whether free buffers are filled by hand, so that one that is touched is seen to be, however often it was cleaned.
    soils: bool,
}

/// Which serials are set by hand, so that slips are spent soon.
#[derive(Clone, Copy)]
enum Worn {
    /// None: they are as the calls leave them.
    Never,
    /// Those of all slips, to the last ones.
    All,
    /// Those of half of the slips, to the last ones.
    Half,
    /// Those of all slips, to any.
    Any,
}

impl Mood {
    pub fn new(random: &mut Random, shape: Shape) -> Mood {
        let mut weights = [0; 16];
        for weight in &mut weights {
            *weight = random.between(1, 12);
        }
        // Open empties the pool and audit changes nothing: both stay rare.
        weights[0] = u64::from(random.once_in(4));
        weights[1] = 1;
        // Put, dup and append make the chains that the others work on.
        weights[2] += 4;
        weights[4] += 4;
        weights[6] += 4;
        // Most of the sequences free seldom, so that slips, pieces and buffers run out.
        if !random.once_in(3) {
            weights[3] = 2;
        }
        let crowded = random.pick(&[0, 2, 4]);
        let put_up_to = match random.below(3) {
            0 => 40,
            // Several short pieces are pulled up together.
            _ if crowded > 0 => 120,
            1 => 700,
            _ => 512 * (1 + shape.0 as u64 / 4),
        };
        Mood {
            weights,
            put_up_to,
            wild: random.pick(&[6, 20, 60]),
            crowded,
            worn: random.pick(&[
                Worn::Never,
                Worn::Never,
                Worn::Never,
                Worn::All,
                Worn::Half,
                Worn::Any,
            ]),
            soils: random.once_in(2),
        }
    }

    /// The same where buffers come and go: few calls share or look, and what is put is joined, and mostly given back.
    pub fn giving_back(mut self) -> Mood {
        let [_, _, put, free, dup, cut, append, drop, keep, pullup, pack, looks @ ..] =
            &mut self.weights;
        for (weight, more) in [
            (put, 12),
            (append, 12),
            (free, 4),
            (drop, 4),
            (keep, 4),
            (pullup, 12),
            (pack, 8),
        ] {
            *weight += more;
        }
        for weight in [dup, cut].into_iter().chain(looks) {
            *weight = 1;
        }
        self
    }

    /// Fills the free buffers by hand with bytes that are not zero, which leaves the pool sound.
    pub fn soil(&self, random: &mut Random, pool: &[u8], storage: &mut [u8]) {
        if !self.soils {
            return;
        }
        let tables = Tables::parse(pool, storage).expect("a pool that the list has left");
        for (count, bytes) in tables.buffers.iter().zip(storage.chunks_mut(512)) {
            if *count == 0 {
                bytes.copy_from_slice(&random.dirt(512));
            }
        }
    }

    /// Sets serials by hand, which leaves the pool sound.
    pub fn wear(&self, random: &mut Random, pool: &mut [u8]) {
        let slips = u16::from_le_bytes([pool[9], pool[10]]) as usize;
        for slip in 0..slips {
            let last = random.between(LAST - 2, LAST);
            let serial = match self.worn {
                Worn::Never => return,
                Worn::All => last,
                Worn::Half if random.once_in(2) => last,
                Worn::Half => continue,
                Worn::Any => random.below(LAST + 1),
            };
            let at = 11 + 4 * slip + 2;
            pool[at..at + 2].copy_from_slice(&(serial as u16).to_le_bytes());
        }
    }

    fn kind(&self, random: &mut Random) -> usize {
        let mut left = random.below(self.weights.iter().sum::<u64>() * 4);
        for (kind, weight) in self.weights.iter().enumerate() {
            // Open counts once where the others count four times.
            let share = if kind == 0 { *weight } else { 4 * weight };
            if left < share {
                return kind;
            }
            left -= share;
        }
        2
    }
}

/// Names that a caller has noted down: some are still held, others are yesterday's.
#[derive(Default)]
pub struct Notes {
    names: Vec<Name>,
}

impl Notes {
    /// So many names at most: then a new one takes the place of an old one.
    const MOST: usize = 40;

    /// Notes the name of some slip, if it is held.
    fn note(&mut self, random: &mut Random, t: &Tables) {
        let number = random.below(t.slips.len() as u64) as u16;
        if t.state(number).is_none() || self.names.contains(&t.name(number)) {
            return;
        }
        if self.names.len() == Notes::MOST {
            let old = random.below(Notes::MOST as u64) as usize;
            self.names.swap_remove(old);
        }
        self.names.push(t.name(number));
    }
}

/// A chain seen from outside: its length and the places where a piece ends.
struct Seen {
    length: u64,
    borders: Vec<u64>,
}

/// What is seen of the slip of this number, whatever serial it is named by: so a wrong one alone is what refuses the call.
fn seen(tables: &Tables, slip: Name) -> Seen {
    let chain = match tables.state(slip.number) {
        Some(state) => tables.chain(state),
        None => Vec::new(),
    };
    Seen {
        length: tables.length(&chain),
        borders: tables.spans(&chain).iter().map(|(_, end)| *end).collect(),
    }
}

/// A byte count for a chain, mostly at a border.
fn amount(random: &mut Random, seen: &Seen, wild: u64) -> u32 {
    if random.once_in(wild) {
        let far = [
            seen.length + 1,
            seen.length + 1,
            seen.length + 600,
            513,
            65_536,
            u32::MAX as u64,
            u32::MAX as u64 - random.below(3),
            1 << 31,
        ];
        return random.pick(&far) as u32;
    }
    let n = match random.below(24) {
        0 => 0,
        1..=2 => 1,
        3..=4 => seen.length.saturating_sub(1),
        5 => seen.length,
        6..=7 => random.between(511, 513),
        8..=17 if !seen.borders.is_empty() => {
            let border = random.pick(&seen.borders);
            match random.below(4) {
                0 => border.saturating_sub(1),
                1 => border + 1,
                _ => border,
            }
        }
        18..=20 => random.below(20),
        _ => random.below(seen.length + 1),
    };
    // Past the end comes with the wild ones, here only now and then.
    if n > seen.length && !random.once_in(8) {
        return random.below(seen.length + 1) as u32;
    }
    n as u32
}

/// A slip number: mostly held, and rather one with a long chain; now and then vacant or S or more.
fn slip(random: &mut Random, tables: &Tables, wild: u64) -> u16 {
    let s = tables.slips.len() as u64;
    if random.once_in(wild) {
        let any = random.below(s);
        return random.pick(&[any, any, s, s + 1, MOST.2, 65_535]) as u16;
    }
    let held: Vec<u64> = (0..s)
        .filter(|i| tables.slips[*i as usize] != Slip::Vacant)
        .collect();
    if held.is_empty() {
        return random.below(s) as u16;
    }
    let (one, other) = (random.pick(&held), random.pick(&held));
    let pieces = |i: u64| tables.chain(tables.slips[i as usize]).len();
    if random.once_in(3) || pieces(one) >= pieces(other) {
        one as u16
    } else {
        other as u16
    }
}

/// A slip's name: mostly the right one, now and then one noted before or with another serial.
fn name(random: &mut Random, tables: &Tables, wild: u64, notes: &Notes) -> Name {
    if random.once_in(24) && !notes.names.is_empty() {
        return random.pick(&notes.names);
    }
    let number = slip(random, tables, wild);
    if number as usize >= tables.slips.len() || random.once_in(24) {
        return Name::new(number, other_serial(random, tables, number));
    }
    tables.name(number)
}

/// A serial that is mostly not the slip's: around it, the first, the last, another slip's, with one bit turned over, or any.
pub fn other_serial(random: &mut Random, tables: &Tables, number: u16) -> u16 {
    let right = tables.serials.get(number as usize).map_or(0, |s| *s as u16);
    let another = random.pick(&tables.serials) as u16;
    let turned = right ^ (1 << random.below(16));
    let any = random.number() as u16;
    let (before, behind) = (right.wrapping_sub(1), right.wrapping_add(1));
    random.pick(&[
        before,
        before,
        behind,
        behind,
        0,
        LAST as u16,
        another,
        turned,
        any,
    ])
}

/// Lent bytes for a copy of n: exact, one short, longer, none, or enough in any case.
pub fn lent_bytes(random: &mut Random, n: u64) -> Vec<u8> {
    let n = n.min(512 * MOST.1 + 9_000);
    let length = match random.below(8) {
        0 => n.saturating_sub(1),
        1 => n + 1,
        2 => n + random.below(40),
        3 => 0,
        _ => n,
    };
    random.bytes(length as usize)
}

/// Counts for an open: mostly those of the pool, or others that ask the same lengths, or wrong ones.
fn open(random: &mut Random, tables: &Tables) -> Call {
    let (b, p, s) = (
        tables.buffers.len() as u16,
        tables.pieces.len() as u16,
        tables.slips.len() as u16,
    );
    let (buffers, pieces, slips) = match random.below(10) {
        // Two pieces less and five slips more are as many bytes.
        0..=2 if p > 2 => (b, p - 2, s + 5),
        3..=4 if s > 5 => (b, p + 2, s - 5),
        5 => random.pick(&[
            (b + 1, p, s),
            (b, p + 1, s),
            (b, p, s + 1),
            (b - 1, p, s),
            (b, p - 1, s),
            (b, p, s - 1),
            (0, 0, 0),
            (u16::MAX, u16::MAX, u16::MAX),
            (s, p, b),
        ]),
        _ => (b, p, s),
    };
    Call::Open {
        buffers,
        pieces,
        slips,
    }
}

/// A random call for a sound pool, by a caller who notes names down on the way.
pub fn call(
    random: &mut Random,
    pool: &[u8],
    storage: &[u8],
    mood: &Mood,
    notes: &mut Notes,
) -> Call {
    let tables = Tables::parse(pool, storage).expect("a pool that the list has left");
    notes.note(random, &tables);
    if mood.crowded > 0 && random.once_in(mood.crowded) {
        if let Some(call) = crowded(random, &tables) {
            return call;
        }
    }
    let mut kind = mood.kind(random);
    // With every slip vacant almost any call is code 3: put, mostly.
    if tables.slips.iter().all(|s| *s == Slip::Vacant) && !random.once_in(4) {
        kind = 2;
    }
    match kind {
        0 => open(random, &tables),
        1 => Call::Audit,
        2 => Call::Put {
            data: data(random, &tables, mood),
        },
        6 => joined(random, &tables, mood.wild, notes),
        _ => {
            let slip = name(random, &tables, mood.wild, notes);
            of_slip(random, &tables, mood.wild, kind, slip)
        }
    }
}

/// A call of this kind that names one slip.
fn of_slip(random: &mut Random, tables: &Tables, wild: u64, kind: usize, slip: Name) -> Call {
    let chain = seen(tables, slip);
    match kind {
        3 => Call::Free { slip },
        4 => Call::Dup { slip },
        5 => {
            let (offset, length) = range(random, &chain, wild);
            Call::Cut {
                slip,
                offset,
                length,
            }
        }
        7 => Call::Drop {
            slip,
            n: amount(random, &chain, wild),
        },
        8 => Call::Keep {
            slip,
            n: amount(random, &chain, wild),
        },
        9 => {
            let mut n = amount(random, &chain, wild);
            if n > 513 && !random.once_in(8) {
                n = random.below(514) as u32;
            }
            Call::Pullup { slip, n }
        }
        10 => Call::Pack { slip },
        11 => Call::Length { slip },
        12 => read(random, tables, slip, wild),
        13 => show(random, tables, slip, wild),
        14 => list(random, tables, slip),
        _ => stretches(random, tables, slip),
    }
}

/// An append: mostly of two slips, often of one that heads a piece inside the other's chain, now and then of one number twice.
fn joined(random: &mut Random, tables: &Tables, wild: u64, notes: &Notes) -> Call {
    let a = name(random, tables, wild, notes);
    let mut b = name(random, tables, wild, notes);
    if a.number == b.number && !random.once_in(4) {
        b = name(random, tables, wild, notes);
    }
    if random.once_in(3) {
        b = heading_inside(tables, a.number).unwrap_or(b);
    }
    if random.once_in(40) {
        b = Name::new(a.number, other_serial(random, tables, a.number));
    }
    Call::Append { a, b }
}

/// A call that takes all free pieces, makes own and shared fronts or, where one piece is free or none, drops or pulls up so that some are wanted.
fn crowded(random: &mut Random, tables: &Tables) -> Option<Call> {
    let free = tables.pieces.len() - tables.used().count();
    let slips = 0..tables.slips.len() as u16;
    let chains: Vec<(Name, Vec<usize>)> = slips
        .filter_map(|slip| Some((tables.name(slip), tables.chain(tables.state(slip)?))))
        .filter(|(_, chain)| !chain.is_empty())
        .collect();
    // Those that are not all own, and of them those with a shared head.
    let fronts = chains.iter().map(|(_, chain)| own(tables, chain));
    let fronts: Vec<(usize, usize)> = fronts.enumerate().collect();
    let mixed = |(i, own): &&(usize, usize)| *own < chains[*i].1.len();
    let mixed: Vec<(usize, usize)> = fronts.iter().filter(mixed).copied().collect();
    let shared = mixed.iter().filter(|(_, own)| *own == 0).copied();
    let shared: Vec<(usize, usize)> = shared.collect();
    for _ in 0..4 {
        let among = random.pick(&[&fronts, &shared, &shared, &mixed, &mixed]);
        if among.is_empty() {
            continue;
        }
        let (one, other) = (random.pick(among), random.pick(among));
        // Rather one with a longer own front.
        let chosen = if one.1 >= other.1 { one } else { other };
        let (slip, chain) = &chains[chosen.0];
        let tried = free == 0 || free == 1 && random.once_in(2);
        let found = match random.below(8) {
            0..=1 => joining(random, tables, *slip, chain),
            2..=3 if free == 0 => heading(tables, *slip, chain),
            _ if tried => wanting(random, tables, *slip, chain),
            _ => filling(random, tables, *slip, chain, free),
        };
        if found.is_some() {
            return found;
        }
    }
    None
}

/// How many pieces at the chain's front are own.
fn own(t: &Tables, chain: &[usize]) -> usize {
    chain
        .iter()
        .take_while(|d| t.pieces[**d].count == 1)
        .count()
}

/// An append of this chain, not all own, behind a short one that is: two own pieces or more stand before one that isn't.
fn joining(random: &mut Random, t: &Tables, b: Name, chain: &[usize]) -> Option<Call> {
    let a = t.name(slip(random, t, u64::MAX));
    let front = t.chain(t.held(a)?);
    let short = !front.is_empty() && t.length(&front) < 200;
    let fits = short && own(t, &front) == front.len() && own(t, chain) < chain.len();
    (a != b && fits).then_some(Call::Append { a, b })
}

/// A drop of the own front, so that the slip heads a shared piece.
fn heading(t: &Tables, slip: Name, chain: &[usize]) -> Option<Call> {
    let own = own(t, chain);
    let n = t.spans(chain).get(own)?.0 as u32;
    (own > 0).then_some(Call::Drop { slip, n })
}

/// A dup or cut that takes as many pieces as are free, or a cut of all the chain's where it has fewer.
fn filling(
    random: &mut Random,
    t: &Tables,
    slip: Name,
    chain: &[usize],
    free: usize,
) -> Option<Call> {
    let given = |i: usize| t.slips[i] == Slip::Vacant && !t.is_spent(i);
    if chain.is_empty() || !(0..t.slips.len()).any(given) {
        return None;
    }
    if free == 1 && random.once_in(2) {
        return Some(Call::Dup { slip });
    }
    let pieces = free.min(chain.len());
    let first = random.below((chain.len() - pieces + 1) as u64) as usize;
    let spans = t.spans(chain);
    let (start, end) = (spans[first].0, spans[first + pieces - 1].1);
    Some(Call::Cut {
        slip,
        offset: start as u32,
        length: (end - start) as u32,
    })
}

/// A drop inside a piece that isn't own, or a pullup of more than the first piece, mostly to inside such a piece.
fn wanting(random: &mut Random, t: &Tables, slip: Name, chain: &[usize]) -> Option<Call> {
    let spans = t.spans(chain);
    let mut inside: Vec<(u64, u64)> = spans[own(t, chain)..].to_vec();
    // The first ones mostly, since pullup reaches no further than 512 bytes.
    inside.truncate(random.pick(&[1, 2, 99]));
    if random.once_in(2) {
        let (start, end) = *inside.get(random.below(inside.len().max(1) as u64) as usize)?;
        let n = random.between(start + 1, end.max(start + 2) - 1);
        return (n < end).then_some(Call::Drop { slip, n: n as u32 });
    }
    let (first, most) = (t.first_length(chain), t.length(chain).min(512));
    if first >= most {
        return None;
    }
    let within: Vec<u64> = inside
        .iter()
        .map(|(start, end)| match random.below(4) {
            0 => *end,
            1 => *start,
            _ => random.between(*start, *end),
        })
        .filter(|n| first < *n && *n <= most)
        .collect();
    let n = match within.is_empty() || random.once_in(3) {
        true => random.between(first + 1, most),
        false => random.pick(&within),
    };
    Some(Call::Pullup { slip, n: n as u32 })
}

/// Another slip that heads a piece of this one's chain, if there is any.
fn heading_inside(tables: &Tables, slip: u16) -> Option<Name> {
    let chain = tables.chain(tables.state(slip)?);
    let inside = |i: usize| match tables.slips[i] {
        Slip::Heads(d) => i != slip as usize && chain.contains(&d),
        _ => false,
    };
    (0..tables.slips.len())
        .find(|i| inside(*i))
        .map(|i| tables.name(i as u16))
}

/// A read with biased range and output.
pub fn read(random: &mut Random, tables: &Tables, slip: Name, wild: u64) -> Call {
    let (offset, length) = range(random, &seen(tables, slip), wild);
    let output = match random.once_in(wild) {
        true => random.bytes(30),
        false => lent_bytes(random, length as u64),
    };
    Call::Read {
        slip,
        offset,
        length,
        output,
    }
}

/// A show with biased count and scratch.
pub fn show(random: &mut Random, tables: &Tables, slip: Name, wild: u64) -> Call {
    let mut n = amount(random, &seen(tables, slip), wild);
    if n > 513 && !random.once_in(8) {
        n = random.below(514) as u32;
    }
    let scratch = lent_bytes(random, (n as u64).min(600));
    Call::Show { slip, n, scratch }
}

/// How many pieces the chain of the slip of this number has.
fn pieces(tables: &Tables, slip: Name) -> usize {
    let state = tables.state(slip.number);
    state.map_or(0, |state| tables.chain(state).len())
}

/// A list of the slip: exact, a number or a record too short, odd, longer, none, or one number for
/// each record; with any old numbers in it.
pub fn list(random: &mut Random, tables: &Tables, slip: Name) -> Call {
    let records = pieces(tables, slip);
    let numbers = match random.below(10) {
        0 => (2 * records).saturating_sub(1),
        1 => 2 * records.saturating_sub(1),
        2 => 2 * records + 1,
        3 => 2 * records + random.below(9) as usize,
        4 => records,
        5 => 0,
        _ => 2 * records,
    };
    Call::List {
        slip,
        list: random.numbers(numbers),
    }
}

/// The same in records: exact, one too short, longer, twice as many, half, or none.
pub fn stretches(random: &mut Random, tables: &Tables, slip: Name) -> Call {
    let pieces = pieces(tables, slip);
    let records = match random.below(10) {
        0 => pieces.saturating_sub(1),
        1 => pieces + 1,
        2 => pieces + random.below(5) as usize,
        3 => 2 * pieces,
        4 => pieces / 2,
        5 => 0,
        _ => pieces,
    };
    let old = random.numbers(2 * records);
    Call::Stretches {
        slip,
        list: old.chunks(2).map(|two| [two[0], two[1]]).collect(),
    }
}

/// A storage that need not be of any pool.
pub fn any_storage(random: &mut Random) -> Vec<u8> {
    let length = match random.below(8) {
        0 => 0,
        1 => random.between(1, 3),
        2 => random.between(510, 514),
        3 => 512 * random.between(1, 8),
        _ => random.below(3_000),
    };
    random.bytes(length as usize)
}

/// A gather from a storage of this length: records that lie in it, of which some are then spoiled,
/// perhaps a lone last number, and an output around their bytes.
pub fn gather(random: &mut Random, storage: usize) -> Call {
    let most = random.pick(&[3, 3, 8, 40]);
    let count = if storage == 0 { 0 } else { random.below(most) };
    let mut records: Vec<[u32; 2]> = (0..count).map(|_| inside(random, storage as u64)).collect();
    if random.once_in(2) {
        spoil(random, storage as u64, &mut records);
    }
    let mut list = records.concat();
    if random.once_in(3) {
        let any = random.number() as u32;
        list.push(random.pick(&[0, 1, u32::MAX, any]));
    }
    let sum: u64 = records.iter().map(|record| record[1] as u64).sum();
    // Past what any such storage gives the output is of any length, or as the sum is in 32 bits.
    let bytes = match sum {
        0..=200_000 => sum,
        _ => random.pick(&[0, 9, 2_000, sum % (1 << 32)]),
    };
    Call::Gather {
        list,
        output: lent_bytes(random, bytes),
    }
}

/// A record inside a storage that has bytes, often at its start, at its end, or all of it.
fn inside(random: &mut Random, storage: u64) -> [u32; 2] {
    let position = match random.below(4) {
        0 => 0,
        1 => storage - 1,
        _ => random.below(storage),
    };
    let rest = storage - position;
    let length = match random.below(4) {
        0 => 1,
        1 => rest,
        2 => random.between(1, rest.min(20)),
        _ => random.between(1, rest),
    };
    [position as u32, length as u32]
}

/// Puts records among the others that are of no length, leave storage, or make the sum pass 32
/// bits.
fn spoil(random: &mut Random, storage: u64, records: &mut Vec<[u32; 2]>) {
    let (most, size) = (u32::MAX, storage as u32);
    let start = random.below(storage + 1) as u32;
    let few = random.below(4) as u32;
    let any = random.number() as u32;
    let wrong: Vec<[u32; 2]> = match random.below(12) {
        0 => vec![[random.pick(&[0, start, size, size + 1, most]), 0]],
        // Past the end by one, and by more.
        1..=2 => vec![[start, size - start + 1]],
        3 => vec![[size + few, 1 + few]],
        4 => vec![[any.max(size), 1 + few]],
        // Round to a small sum in 32 bits.
        5..=6 => vec![[most - few, 1 + few + random.below(storage + 1) as u32]],
        7 => vec![[1 + few, most - few]],
        8 => vec![[any, most - few]],
        // The lengths come round together, once or many times.
        9 => vec![[0, 1 << 31], [start, 1 << 31]],
        10 => vec![[0, any], [start, any.wrapping_neg()]],
        _ => vec![[start, most]; 1 + random.below(70) as usize],
    };
    let place = random.below(records.len() as u64 + 1) as usize;
    records.splice(place..place, wrong);
}

/// Data for a put, its length mostly at a border of the buffers or of the room.
fn data(random: &mut Random, tables: &Tables, mood: &Mood) -> Vec<u8> {
    let free_buffers = tables.buffers.iter().filter(|n| **n == 0).count() as u64;
    let free_pieces = tables.pieces.iter().filter(|q| q.count == 0).count() as u64;
    let length = match random.below(20) {
        0 => 0,
        1 => random.between(511, 513),
        2 => random.between(1_023, 1_025),
        3 if random.once_in(3) => 512 * free_buffers,
        4 if random.once_in(3) => 512 * free_buffers + 1,
        5 if random.once_in(3) => 512 * free_pieces,
        6 if random.once_in(3) => 512 * free_pieces + 1,
        7 if random.once_in(20) => 512 * (MOST.0 + 1),
        8 => 1,
        _ => random.between(1, mood.put_up_to),
    };
    random.bytes(length as usize)
}

/// An offset and a length, also such as come round to a small sum in 32 bits.
fn range(random: &mut Random, seen: &Seen, wild: u64) -> (u32, u32) {
    let offset = amount(random, seen, wild);
    let rest = seen.length.saturating_sub(offset as u64);
    if random.once_in(2 * wild) {
        let round = (1u64 << 32) - (offset as u64).max(1);
        return (
            offset,
            (round + random.below(3)).min(u32::MAX as u64) as u32,
        );
    }
    // What is left of the chain past the offset has borders of its own.
    let behind = Seen {
        length: rest,
        borders: seen
            .borders
            .iter()
            .filter(|border| **border > offset as u64)
            .map(|border| border - offset as u64)
            .collect(),
    };
    (offset, amount(random, &behind, wild))
}
