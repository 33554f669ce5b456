//! Does one operation many times on a full pool, so that a profiler can count its instructions.
//!
//! `operation_cost WHO CASE TIMES`: WHO is `library` (audit and operation), `audit` (slp_audit alone on the same
//! pool), `yardstick` (the same operation written by hand, unaudited), `audited` (the audit by hand and then the same)
//! or `empty` (a call that does nothing). Every call starts from the case's pool, storage, output and list, which are
//! copied back in each run alike, storage where the case writes it. Before that the library and the yardstick do
//! the case once, and must leave the very same bytes, list and answer, and give back as many buffers as the case says.
//! Gather has no pool, so `library` and `audited` audit nothing there.
//!
//! Without arguments it lists the cases, one a line: name, operation and what is done.

mod by_hand;

use std::env;
use std::hint::black_box;
use std::sync::OnceLock;

use fulcrumnest::{Answer, Gathered, Shape, Shown, Slip, Stretch};

/// Buffers, pieces and slips of every case's pool: FULCRUMNEST_SHAPE, three numbers, or the most.
fn shape() -> [usize; 3] {
    static SHAPE: OnceLock<[usize; 3]> = OnceLock::new();
    *SHAPE.get_or_init(|| match env::var("FULCRUMNEST_SHAPE") {
        Ok(text) => {
            let numbers = text.split(' ').map(|word| word.parse().expect("a number"));
            let numbers: Vec<usize> = numbers.collect();
            numbers.try_into().expect("three numbers")
        }
        Err(_) => {
            let most = Shape::MOST;
            [most.buffers, most.pieces, most.slips].map(usize::from)
        }
    })
}

fn buffers() -> usize {
    shape()[0]
}

fn pieces() -> usize {
    shape()[1]
}

fn slips() -> usize {
    shape()[2]
}

/// The bytes of most pieces: two lie on a buffer.
const PIECE: usize = 256;

/// The serial of every slip in every case's pool.
const SERIAL: u16 = 7;

fn slip(number: u16) -> Slip {
    Slip::new(number, SERIAL)
}

/// All that a call is lent, and what it answers.
#[derive(Clone, Debug, PartialEq, Eq)]
struct Lent {
    pool: Vec<u8>,
    storage: Vec<u8>,
    data: Vec<u8>,
    output: Vec<u8>,
    list: Vec<u32>,
    records: Vec<Stretch>,
    slip: Slip,
    other: Slip,
    offset: u32,
    n: u32,
    /// How many buffers the call gives back, where the case is about that.
    given: Option<usize>,
    answer: Answer,
    shown: Shown,
    gathered: Gathered,
}

impl Lent {
    /// A pool and its storage, with no data, no output, no list and arguments 0.
    fn new(pool: Vec<u8>) -> Lent {
        Lent {
            pool,
            storage: (0..512 * buffers()).map(|i| (i % 251) as u8).collect(),
            data: Vec::new(),
            output: Vec::new(),
            list: Vec::new(),
            records: Vec::new(),
            slip: slip(0),
            other: slip(0),
            offset: 0,
            n: 0,
            given: None,
            answer: Answer { code: 0, number: 0 },
            shown: Shown {
                code: 0,
                number: 0,
                in_scratch: 0,
                start: 0,
            },
            gathered: Gathered { code: 0, number: 0 },
        }
    }

    fn data(self, n: usize) -> Lent {
        let data = (0..n).map(|i| (i % 241) as u8).collect();
        Lent { data, ..self }
    }

    fn output(self, n: usize) -> Lent {
        let output = vec![0xEE; n];
        Lent { output, ..self }
    }

    fn list(self, list: Vec<u32>) -> Lent {
        Lent { list, ..self }
    }

    fn records(self, n: usize) -> Lent {
        let records = vec![Stretch::default(); n];
        Lent { records, ..self }
    }

    fn other(self, other: u16) -> Lent {
        let other = slip(other);
        Lent { other, ..self }
    }

    fn offset(self, offset: u32) -> Lent {
        Lent { offset, ..self }
    }

    fn n(self, n: u32) -> Lent {
        Lent { n, ..self }
    }

    fn given(self, buffers: usize) -> Lent {
        let given = Some(buffers);
        Lent { given, ..self }
    }

    /// Pool, output and list become those of the case again, and storage where the case writes it.
    fn reset(&mut self, case: &Lent, stores: bool) {
        self.pool.copy_from_slice(&case.pool);
        if stores {
            self.storage.copy_from_slice(&case.storage);
        }
        self.output.copy_from_slice(&case.output);
        self.list.copy_from_slice(&case.list);
        self.records.copy_from_slice(&case.records);
    }
}

/// How many of the last slips, pieces and buffers a case leaves free: exactly those of them that its call takes.
#[derive(Clone, Copy)]
struct Room {
    slips: usize,
    pieces: usize,
    buffers: usize,
}

const fn room(slips: usize, pieces: usize, buffers: usize) -> Room {
    Room {
        slips,
        pieces,
        buffers,
    }
}

/// A pool being built: slips and pieces are taken from the lowest on, and the counts are set at the end.
struct Builder {
    pool: Vec<u8>,
    room: Room,
    /// So many of the first pieces lie alone, each on a buffer that no other piece lies on.
    alone: usize,
    slips: usize,
    pieces: usize,
}

fn get16(pool: &[u8], at: usize) -> usize {
    u16::from_le_bytes([pool[at], pool[at + 1]]) as usize
}

fn put16(pool: &mut [u8], at: usize, v: usize) {
    pool[at..at + 2].copy_from_slice(&(v as u16).to_le_bytes());
}

/// The bytes of a slip, of a piece and of a buffer's count.
fn slip_at(s: usize) -> usize {
    11 + 4 * s
}

fn piece_at(d: usize) -> usize {
    slip_at(slips()) + 10 * d
}

fn count_at(b: usize) -> usize {
    piece_at(pieces()) + 2 * b
}

impl Builder {
    fn new(room: Room) -> Builder {
        let mut pool = vec![0; count_at(buffers())];
        pool[..3].copy_from_slice(b"SLP");
        for (at, v) in [(3, 2), (5, buffers()), (7, pieces()), (9, slips())] {
            put16(&mut pool, at, v);
        }
        for s in 0..slips() {
            put16(&mut pool, slip_at(s) + 2, SERIAL as usize);
        }
        Builder {
            pool,
            room,
            alone: 0,
            slips: 0,
            pieces: 0,
        }
    }

    fn alone(self, alone: usize) -> Builder {
        Builder { alone, ..self }
    }

    /// The next slip takes this state.
    fn slip(mut self, state: usize) -> Builder {
        put16(&mut self.pool, slip_at(self.slips), state);
        self.slips += 1;
        self
    }

    /// The next slip takes a chain of new pieces of `length` bytes, each on the next buffer.
    fn chain(mut self, pieces: usize, length: usize) -> Builder {
        let shared = buffers() - self.room.buffers - self.alone;
        let first = self.pieces;
        let end = first + pieces;
        for d in first..end {
            let next = if d + 1 < end { d + 2 } else { 0 };
            let (buffer, turn) = match d.checked_sub(self.alone) {
                None => (d, 0),
                Some(other) => (self.alone + other % shared, other / shared),
            };
            let entry = [0, buffer, PIECE * (turn % 2), length, next];
            for (k, v) in entry.into_iter().enumerate() {
                put16(&mut self.pool, piece_at(d) + 2 * k, v);
            }
        }
        self.pieces = end;
        self.slip(if pieces == 0 { 1 } else { first + 2 })
    }

    /// Fills the pool up to its room with chains of equal length, then sets every count by the references.
    fn full(mut self) -> Lent {
        while self.slips < slips() - self.room.slips {
            let chains = slips() - self.room.slips - self.slips;
            let pieces = pieces() - self.room.pieces - self.pieces;
            self = self.chain(pieces.div_ceil(chains), PIECE);
        }
        assert_eq!(self.pieces, pieces() - self.room.pieces);
        let pool = &mut self.pool;
        let heads = (0..slips()).map(|s| get16(pool, slip_at(s)).saturating_sub(1));
        let nexts = (0..pieces()).map(|d| get16(pool, piece_at(d) + 8));
        let links = heads.chain(nexts).filter(|link| *link != 0);
        let references = links.map(|link| piece_at(link - 1));
        let lying = (0..self.pieces).map(|d| count_at(get16(pool, piece_at(d) + 2)));
        for at in references.chain(lying).collect::<Vec<usize>>() {
            let count = get16(pool, at);
            put16(pool, at, count + 1);
        }
        Lent::new(self.pool)
    }
}

/// A full pool whose slip 0 has a chain of so many pieces, all own.
fn own(pieces: usize, length: usize, room: Room) -> Lent {
    Builder::new(room).chain(pieces, length).full()
}

/// The same, each of its pieces alone on its buffer.
fn alone(pieces: usize, room: Room) -> Lent {
    let built = Builder::new(room).alone(pieces);
    built.chain(pieces, PIECE).full()
}

/// A full pool whose slip 0 has a chain of so many pieces, while slip 1 heads its piece `from`.
fn shared(pieces: usize, from: usize, room: Room) -> Lent {
    shared_by(pieces, PIECE, from, room)
}

/// The same with so many bytes in each piece.
fn shared_by(pieces: usize, length: usize, from: usize, room: Room) -> Lent {
    let built = Builder::new(room).chain(pieces, length);
    built.slip(from + 2).full()
}

/// The same with the chain under slip 1 and `from` headed by slip 2, behind the pieces of slip 0, which are all others.
fn shared_last(count: usize, length: usize, from: usize, room: Room) -> Lent {
    let before = pieces() - room.pieces - count;
    let built = Builder::new(room).chain(before, PIECE).chain(count, length);
    let lent = built.slip(before + from + 2).full();
    Lent {
        slip: slip(1),
        ..lent
    }
}

/// One way to do something with what is lent.
type Way = fn(&mut Lent);

/// An operation, the library's way to do it and the yardstick's, as it is and behind an audit.
#[derive(Clone, Copy)]
struct Operation {
    name: &'static str,
    library: Way,
    yardstick: Way,
    audited: Way,
}

/// The ways of one operation, called with the same arguments.
macro_rules! operation {
    ($l:ident.$answer:ident = $name:ident($($argument:expr),*)) => {
        Operation {
            name: stringify!($name),
            library: |$l| $l.$answer = fulcrumnest::calls::$name($($argument),*),
            // Every case's pool is audited before it is used.
            yardstick: |$l| $l.$answer = unsafe { by_hand::$name($($argument),*) },
            audited: |$l| {
                if by_hand::audit(&$l.pool, &$l.storage).code == 0 {
                    $l.$answer = unsafe { by_hand::$name($($argument),*) };
                }
            },
        }
    };
}

const PUT: Operation = operation!(l.answer = put(&mut l.pool, &mut l.storage, &l.data));
const FREE: Operation = operation!(l.answer = free(&mut l.pool, &mut l.storage, l.slip));
const DUP: Operation = operation!(l.answer = dup(&mut l.pool, &l.storage, l.slip));
const CUT: Operation = operation!(l.answer = cut(&mut l.pool, &l.storage, l.slip, l.offset, l.n));
const APPEND: Operation =
    operation!(l.answer = append(&mut l.pool, &mut l.storage, l.slip, l.other));
const DROP: Operation = operation!(l.answer = drop(&mut l.pool, &mut l.storage, l.slip, l.n));
const KEEP: Operation = operation!(l.answer = keep(&mut l.pool, &mut l.storage, l.slip, l.n));
const PULLUP: Operation = operation!(l.answer = pullup(&mut l.pool, &mut l.storage, l.slip, l.n));
const PACK: Operation = operation!(l.answer = pack(&mut l.pool, &mut l.storage, l.slip));
const LENGTH: Operation = operation!(l.answer = length(&l.pool, &l.storage, l.slip));
const READ: Operation =
    operation!(l.answer = read(&l.pool, &l.storage, l.slip, l.offset, l.n, &mut l.output));
const SHOW: Operation = operation!(l.shown = show(&l.pool, &l.storage, l.slip, l.n, &mut l.output));
const LIST: Operation = operation!(l.answer = list(&l.pool, &l.storage, l.slip, &mut l.list));
const STRETCHES: Operation =
    operation!(l.answer = stretches(&l.pool, &l.storage, l.slip, &mut l.records));

/// Gather asks no pool: there is nothing to audit.
const GATHER: Operation = Operation {
    name: "gather",
    library: |l| l.gathered = fulcrumnest::calls::gather(&l.storage, &l.list, &mut l.output),
    yardstick: |l| l.gathered = by_hand::gather(&l.storage, &l.list, &mut l.output),
    audited: |l| l.gathered = by_hand::gather(&l.storage, &l.list, &mut l.output),
};

/// What is done in a case of an operation, and what the call is lent.
type States = Vec<(&'static str, Lent)>;

const NONE: Room = room(0, 0, 0);
const BUFFER: Room = room(0, 0, 1);

fn puts() -> States {
    let put = |n: usize| {
        let wanted = n.div_ceil(512);
        let built = Builder::new(room(1, wanted, wanted));
        built.full().data(n)
    };
    vec![
        ("100 bytes: 1 new piece", put(100)),
        ("2,000 bytes: 4 new pieces", put(2_000)),
        ("51,100 bytes: 100 new pieces", put(51_100)),
    ]
}

fn frees() -> States {
    vec![
        ("4 pieces", own(4, PIECE, NONE)),
        ("4 pieces, shared from the third on", shared(4, 2, NONE)),
        ("100 pieces", own(100, PIECE, NONE)),
        ("4 pieces: 4 buffers given back", alone(4, NONE).given(4)),
        (
            "100 pieces: 100 buffers given back",
            alone(100, NONE).given(100),
        ),
    ]
}

fn dups() -> States {
    vec![("4 pieces: 1 new piece", own(4, PIECE, room(1, 1, 0)))]
}

fn cuts() -> States {
    let cut = |pieces, wanted, offset, n| {
        let lent = own(pieces, PIECE, room(1, wanted, 0));
        lent.offset(offset).n(n)
    };
    vec![
        (
            "600 bytes inside 4 pieces: 3 new pieces",
            cut(4, 3, 100, 600),
        ),
        (
            "25,580 bytes of 100 pieces: 100 new pieces",
            cut(100, 100, 10, 25_580),
        ),
    ]
}

fn appends() -> States {
    let behind = |lent: Lent| lent.other(9);
    let own = |pieces| behind(own(pieces, PIECE, NONE));
    let shared = |pieces, from| behind(shared(pieces, from, room(0, pieces - from, 0)));
    vec![
        ("behind 4 pieces", own(4)),
        (
            "behind 4 pieces, shared from the second on: 3 new pieces",
            shared(4, 1),
        ),
        ("behind 100 pieces", own(100)),
        ("behind 100 pieces, shared: 100 new pieces", shared(100, 0)),
    ]
}

fn drops() -> States {
    let own = |pieces, n| own(pieces, PIECE, NONE).n(n);
    let front = |pieces, from, n| shared(pieces, from, NONE).n(n);
    let shared = |pieces, n| shared(pieces, 0, room(0, 1, 0)).n(n);
    vec![
        ("512 bytes of 4 pieces, at a border", own(4, 512)),
        ("600 bytes of 4 pieces, inside the third", own(4, 600)),
        ("600 bytes of 4 pieces, shared: 1 new piece", shared(4, 600)),
        (
            "25,500 bytes of 100 pieces, inside the last",
            own(100, 25_500),
        ),
        (
            "600 bytes of 4 pieces, shared from the third on: 1 new piece",
            front(4, 2, 600),
        ),
        (
            "600 bytes of 4 pieces, shared from the third on, the last of the table: 1 new piece",
            shared_last(4, PIECE, 2, NONE).n(600),
        ),
        (
            "25,500 bytes of 100 pieces, shared from the last on: 1 new piece",
            front(100, 99, 25_500),
        ),
        (
            "600 bytes of 4 pieces, inside the third: 2 buffers given back",
            alone(4, NONE).n(600).given(2),
        ),
        (
            "25,500 bytes of 100 pieces, inside the last: 99 buffers given back",
            alone(100, NONE).n(25_500).given(99),
        ),
    ]
}

fn keeps() -> States {
    let own = |pieces, n| own(pieces, PIECE, NONE).n(n);
    let shared = |pieces, wanted, n| shared(pieces, 0, room(0, wanted, 0)).n(n);
    vec![
        ("600 bytes of 4 pieces, inside the third", own(4, 600)),
        (
            "600 bytes of 4 pieces, shared: 3 new pieces",
            shared(4, 3, 600),
        ),
        (
            "25,500 bytes of 100 pieces, inside the last",
            own(100, 25_500),
        ),
        (
            "25,500 bytes of 100 pieces, shared: 100 new pieces",
            shared(100, 100, 25_500),
        ),
        (
            "500 bytes of 4 pieces, inside the second: 2 buffers given back",
            alone(4, NONE).n(500).given(2),
        ),
        (
            "100 bytes of 100 pieces, inside the first: 99 buffers given back",
            alone(100, NONE).n(100).given(99),
        ),
    ]
}

fn pullups() -> States {
    vec![
        (
            "500 bytes of 4 pieces: 1 new piece",
            own(4, PIECE, BUFFER).n(500),
        ),
        (
            "500 bytes of 4 pieces, shared: 2 new pieces",
            shared(4, 0, room(0, 2, 1)).n(500),
        ),
        (
            "498 bytes of 100 pieces of 5: 1 new piece",
            own(100, 5, BUFFER).n(498),
        ),
        (
            "512 bytes of 4 pieces, shared from the third on: 1 new piece",
            shared(4, 2, BUFFER).n(512),
        ),
        (
            "512 bytes of 4 pieces, shared from the third on, the last of the table: 1 new piece",
            shared_last(4, PIECE, 2, BUFFER).n(512),
        ),
        (
            "500 bytes of 4 pieces, shared from the second on: 2 new pieces",
            shared(4, 1, room(0, 1, 1)).n(500),
        ),
        (
            "498 bytes of 100 pieces of 50, shared from the tenth on: 2 new pieces",
            shared_by(100, 50, 9, BUFFER).n(498),
        ),
        (
            "498 bytes of 100 pieces of 5, shared from the last on, the last of the table: 2 new pieces",
            shared_last(100, 5, 99, BUFFER).n(498),
        ),
        (
            "512 bytes of 4 pieces: 1 new piece, 2 buffers given back",
            alone(4, BUFFER).n(512).given(2),
        ),
    ]
}

fn packs() -> States {
    vec![
        ("4 pieces: 2 new pieces", own(4, PIECE, room(0, 2, 2))),
        (
            "100 pieces: 50 new pieces",
            own(100, PIECE, room(0, 50, 50)),
        ),
        (
            "4 pieces: 2 new pieces, 4 buffers given back",
            alone(4, room(0, 2, 2)).given(4),
        ),
        (
            "50 pieces: 25 new pieces, 50 buffers given back",
            alone(50, room(0, 25, 25)).given(50),
        ),
    ]
}

fn lengths() -> States {
    vec![
        ("4 pieces", own(4, PIECE, NONE)),
        ("100 pieces", own(100, PIECE, NONE)),
    ]
}

fn reads() -> States {
    let read = |pieces, length, offset, n: u32| {
        let lent = own(pieces, length, NONE);
        lent.offset(offset).n(n).output(n as usize)
    };
    vec![
        ("600 bytes inside 4 pieces", read(4, PIECE, 100, 600)),
        ("25,580 bytes of 100 pieces", read(100, PIECE, 10, 25_580)),
        ("490 bytes of 100 pieces of 5", read(100, 5, 6, 490)),
    ]
}

fn shows() -> States {
    let show = |n| own(4, PIECE, NONE).n(n).output(512);
    vec![
        ("200 bytes of 4 pieces, in storage", show(200)),
        ("500 bytes of 4 pieces, copied", show(500)),
    ]
}

fn lists() -> States {
    let list = |pieces: usize| own(pieces, PIECE, NONE).list(vec![0; 2 * pieces]);
    vec![("4 pieces", list(4)), ("100 pieces", list(100))]
}

fn stretches() -> States {
    let records = |pieces: usize| own(pieces, PIECE, NONE).records(pieces);
    vec![("4 pieces", records(4)), ("100 pieces", records(100))]
}

fn gathers() -> States {
    // The list of a chain whose pieces lie each on the next buffer.
    let gather = |records: usize, length: usize| {
        let list = (0..records as u32).flat_map(|d| [512 * d, length as u32]);
        let lent = own(records, length, NONE).list(list.collect());
        lent.output(records * length)
    };
    vec![
        ("1,024 bytes of 4 records", gather(4, PIECE)),
        ("25,600 bytes of 100 records", gather(100, PIECE)),
        ("500 bytes of 100 records of 5", gather(100, 5)),
    ]
}

/// One operation on one state of what it is lent.
struct Case {
    name: String,
    operation: Operation,
    what: &'static str,
    lent: Lent,
}

/// Every case, named by its operation and its place among those of the operation.
fn cases() -> Vec<Case> {
    let all: [(Operation, fn() -> States); 15] = [
        (PUT, puts),
        (FREE, frees),
        (DUP, dups),
        (CUT, cuts),
        (APPEND, appends),
        (DROP, drops),
        (KEEP, keeps),
        (PULLUP, pullups),
        (PACK, packs),
        (LENGTH, lengths),
        (READ, reads),
        (SHOW, shows),
        (LIST, lists),
        (GATHER, gathers),
        (STRETCHES, stretches),
    ];
    let mut cases = Vec::new();
    for (operation, states) in all {
        for (i, (what, lent)) in states().into_iter().enumerate() {
            cases.push(Case {
                name: format!("{}-{}", operation.name, i + 1),
                operation,
                what,
                lent,
            });
        }
    }
    cases
}

/// A call that does nothing with what it is lent.
#[inline(never)]
fn nothing(_pool: &mut [u8], _storage: &mut [u8]) -> Answer {
    black_box(Answer { code: 0, number: 0 })
}

/// Both ways leave the same bytes and answer, done, and the pool is sound before and after. Answers whether storage is written.
fn compare(case: &Case) -> bool {
    let sound = |lent: &Lent| {
        let by_hand = by_hand::audit(&lent.pool, &lent.storage);
        fulcrumnest::calls::audit(&lent.pool, &lent.storage).code == 0 && by_hand.code == 0
    };
    assert!(sound(&case.lent), "{}: the case's pool", case.name);
    let (mut one, mut two) = (case.lent.clone(), case.lent.clone());
    (case.operation.library)(&mut one);
    (case.operation.yardstick)(&mut two);
    assert!(one == two, "{}: library and yardstick differ", case.name);
    let codes = (one.answer.code, one.shown.code, one.gathered.code);
    assert_eq!(codes, (0, 0, 0), "{}", case.name);
    assert!(sound(&one), "{}: the pool left", case.name);
    // A buffer given back had a piece before and has none now.
    let count = |lent: &Lent, b: usize| get16(&lent.pool, count_at(b));
    let given = (0..buffers()).filter(|b| count(&case.lent, *b) > 0 && count(&one, *b) == 0);
    let given = given.count();
    assert_eq!(given, case.lent.given.unwrap_or(given), "{}", case.name);
    // All that was free is taken: the pool was full but for exactly that.
    let slips = (0..slips()).map(slip_at);
    let pieces = (0..pieces()).map(piece_at);
    let counts = (0..buffers()).map(count_at);
    for at in slips.chain(pieces).chain(counts) {
        let taken = get16(&case.lent.pool, at) != 0 || get16(&one.pool, at) != 0;
        assert!(taken, "{}: byte {at} stays free", case.name);
    }
    one.storage != case.lent.storage
}

fn main() {
    let args: Vec<String> = env::args().skip(1).collect();
    let cases = cases();
    if args.is_empty() {
        for case in &cases {
            println!("{}|{}|{}", case.name, case.operation.name, case.what);
        }
        return;
    }
    let case = cases.iter().find(|case| case.name == args[1]);
    let case = case.expect("a case");
    let times: u64 = args[2].parse().expect("a number");
    let way: Way = match args[0].as_str() {
        "library" => case.operation.library,
        "audit" => |l| l.answer = fulcrumnest::calls::audit(&l.pool, &l.storage),
        "yardstick" => case.operation.yardstick,
        "audited" => case.operation.audited,
        "empty" => |l| l.answer = nothing(&mut l.pool, &mut l.storage),
        _ => panic!("library, audit, yardstick, audited or empty"),
    };
    let stores = compare(case);
    let mut lent = case.lent.clone();
    for _ in 0..times {
        lent.reset(&case.lent, stores);
        black_box(way)(black_box(&mut lent));
    }
}
