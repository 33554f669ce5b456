//! The library's looking calls (open, audit, length, read, show, list, stretches) against the
//! model, on sound pools with all kinds of shared chains and on pools damaged in every way.
#![cfg(fulcrumnest_lib)]

mod common;

use std::ptr::{null, null_mut};
use std::time::Instant;

use common::compare;
use common::damage;
use common::library::{self, slip_of};
use common::model::{Call, Name, Slip, Tables, LAST, SLIP, TRUE, VERSION};
use common::random::{self, Random, Shape, LARGEST, SHAPES};
use common::sequence::{largest, pools, setting, List};
use fulcrumnest::{calls, ffi};

/// Makes calls of library and model on the same bytes and counts them.
struct Pair {
    calls: u64,
    /// How often the audit said yes and no, so that neither is left untried.
    sound: u64,
    torn: u64,
    begun: Instant,
}

impl Pair {
    fn new() -> Pair {
        Pair {
            calls: 0,
            sound: 0,
            torn: 0,
            begun: Instant::now(),
        }
    }

    /// Answers the code, once library and model agree on all.
    fn compare(&mut self, from: &str, pool: &[u8], storage: &[u8], call: &Call) -> u16 {
        let wanted = TRUE.step(pool, storage, call);
        let got = library::step(pool, storage, call);
        if let Some(text) = compare::outcomes(&wanted, &got) {
            panic!(
                "{from}: {}\n{text}\n{}",
                call.brief(),
                compare::dump("pool", pool)
            );
        }
        self.calls += 1;
        if *call == Call::Audit {
            match wanted.code {
                0 => self.sound += 1,
                _ => self.torn += 1,
            }
        }
        wanted.code
    }

    /// Audit, length, read, show, list and stretches, each once.
    fn compare_all(&mut self, from: &str, random: &mut Random, pool: &[u8], storage: &[u8]) {
        let code = self.compare(from, pool, storage, &Call::Audit);
        let tables = Tables::parse(pool, storage).filter(|_| code == 0);
        let (slip, calls) = match &tables {
            Some(tables) => {
                let slip = held_slip(random, tables);
                (slip, looks(random, tables, slip))
            }
            None => {
                let slip = Name::from(random.below(3) as u16);
                (slip, any_looks(random, slip))
            }
        };
        self.compare(from, pool, storage, &Call::Length { slip });
        for call in &calls {
            self.compare(from, pool, storage, call);
        }
    }

    fn print(&self, what: &str) {
        println!(
            "{what}: {} calls, audits {} yes and {} no, {:.1} s",
            self.calls,
            self.sound,
            self.torn,
            self.begun.elapsed().as_secs_f64()
        );
    }
}

/// A call of each kind that is lent something to write, for a sound pool.
fn looks(random: &mut Random, tables: &Tables, slip: Name) -> [Call; 4] {
    [
        random::read(random, tables, slip, 20),
        random::show(random, tables, slip, 20),
        random::list(random, tables, slip),
        random::stretches(random, tables, slip),
    ]
}

/// The same where the pool is torn, so that no argument matters.
fn any_looks(random: &mut Random, slip: Name) -> [Call; 4] {
    let reading = Call::Read {
        slip,
        offset: random.below(3) as u32,
        length: random.below(9) as u32,
        output: random.bytes(8),
    };
    let n = random.below(9) as u32;
    let scratch = random.bytes(8);
    let showing = Call::Show { slip, n, scratch };
    let numbers = random.below(6) as usize;
    let listing = Call::List {
        slip,
        list: random.numbers(numbers),
    };
    let records = random.below(4) as usize;
    let stretches = Call::Stretches {
        slip,
        list: vec![[7, 9]; records],
    };
    [reading, showing, listing, stretches]
}

/// A held slip, now and then any number or another serial.
fn held_slip(random: &mut Random, tables: &Tables) -> Name {
    let held: Vec<u16> = (0..tables.slips.len())
        .filter(|i| tables.slips[*i] != Slip::Vacant)
        .map(|i| i as u16)
        .collect();
    if held.is_empty() || random.once_in(12) {
        let any = random.below(tables.slips.len() as u64 + 2) as u16;
        return Name::new(any, random::other_serial(random, tables, any));
    }
    tables.name(random.pick(&held))
}

/// The slip of this number as it is called, or with serial 0 if there is none.
fn named(tables: &Tables, number: u16) -> Name {
    match (number as usize) < tables.slips.len() {
        true => tables.name(number),
        false => Name::from(number),
    }
}

/// Every slip, every border and every kind of output and scratch, on sound pools.
#[test]
fn sound_pools() {
    let mut pair = Pair::new();
    for (seed, mut list) in pools(300, 60) {
        let from = format!("seed {seed}, shape {:?}", list.shape);
        let tables = Tables::parse(&list.pool, &list.storage).expect("sound");
        let random = &mut list.random;
        pair.compare(&from, &list.pool, &list.storage, &Call::Audit);
        let s = tables.slips.len() as u16;
        for number in (0..s).chain([s, s + 1, 255, 256, u16::MAX]) {
            let slip = named(&tables, number);
            pair.compare(&from, &list.pool, &list.storage, &Call::Length { slip });
            let chain = tables.state(number).map(|state| tables.chain(state));
            let spans = tables.spans(&chain.unwrap_or_default());
            let whole = spans.last().map_or(0, |(_, end)| *end);
            // Show around the first piece's end, the chain's end and the most of 512.
            let first = spans.first().map_or(0, |(_, end)| *end);
            for n in [
                0,
                1,
                first,
                first + 1,
                whole,
                whole + 1,
                512,
                513,
                u32::MAX as u64,
            ] {
                for scratch in [0, n.min(514).saturating_sub(1), n.min(514), 520] {
                    let scratch = random.bytes(scratch as usize);
                    let n = n as u32;
                    let call = Call::Show { slip, n, scratch };
                    pair.compare(&from, &list.pool, &list.storage, &call);
                }
            }
            // Reads around a border, to the end, past it, and round in 32 bits.
            let border = match spans.is_empty() {
                true => 0,
                false => random.pick(&spans).1,
            };
            let most = u32::MAX as u64;
            for (offset, length) in [
                (0, whole),
                (0, whole + 1),
                (whole, 0),
                (whole, 1),
                (whole + 1, 0),
                (border, whole - border),
                (border.saturating_sub(1), 1),
                (border.saturating_sub(1), 2),
                (1, most),
                (most, 1),
                (most, most),
                (border.max(1), most - border.max(1) + 1),
            ] {
                for output in [0, length.min(9_999).saturating_sub(1), length.min(9_999), 9] {
                    let call = Call::Read {
                        slip,
                        offset: offset as u32,
                        length: length as u32,
                        output: random.bytes(output as usize),
                    };
                    pair.compare(&from, &list.pool, &list.storage, &call);
                }
            }
            for _ in 0..4 {
                let call = random::read(random, &tables, slip, 8);
                pair.compare(&from, &list.pool, &list.storage, &call);
                let call = random::show(random, &tables, slip, 8);
                pair.compare(&from, &list.pool, &list.storage, &call);
            }
        }
    }
    pair.print("sound pools");
    assert!(pair.sound > 0 && pair.torn == 0);
    assert!(pair.calls > 100_000);
}

/// Every slip by every kind of wrong serial, and numbers of S or more by any: each look is refused with 3.
#[test]
fn wrong_serials() {
    let mut pair = Pair::new();
    for (seed, mut list) in pools(200, 60) {
        let from = format!("seed {seed}, shape {:?}", list.shape);
        let tables = Tables::parse(&list.pool, &list.storage).expect("sound");
        let s = tables.slips.len() as u16;
        for number in (0..s).chain([s, s + 1, 2 * s, 255, 256, u16::MAX]) {
            for _ in 0..4 {
                let serial = random::other_serial(&mut list.random, &tables, number);
                let slip = Name::new(number, serial);
                if tables.held(slip).is_some() {
                    continue;
                }
                let looks = looks(&mut list.random, &tables, slip);
                for call in looks.iter().chain([&Call::Length { slip }]) {
                    let code = pair.compare(&from, &list.pool, &list.storage, call);
                    assert_eq!(code, SLIP, "{from}: {}", call.brief());
                }
            }
        }
    }
    pair.print("wrong serials");
    assert!(pair.calls > 20_000);
}

/// Each field of each entry off by one, up and down.
#[test]
fn fields_off_by_one() {
    let mut pair = Pair::new();
    for (seed, mut list) in pools(80, 40) {
        let shape = list.shape;
        let random = &mut list.random;
        let mut visit = |what: &str, pool: &[u8], storage: &[u8]| {
            let from = format!("seed {seed}, shape {shape:?}, {what}");
            pair.compare_all(&from, random, pool, storage);
        };
        damage::fields_off_by_one(&list.pool, &list.storage, &mut visit);
    }
    pair.print("fields off by one");
    assert!(pair.sound > 1_000 && pair.torn > 10_000);
}

/// Rings, nexts and slips to the wrong piece, places past the buffer, dirty free pieces.
#[test]
fn tables_damaged() {
    let mut pair = Pair::new();
    for (seed, mut list) in pools(80, 40) {
        let shape = list.shape;
        let mut arguments = Random::new(seed);
        let mut visit = |what: &str, pool: &[u8], storage: &[u8]| {
            let from = format!("seed {seed}, shape {shape:?}, {what}");
            pair.compare_all(&from, &mut arguments, pool, storage);
        };
        damage::tables_damaged(&mut list.random, &list.pool, &list.storage, &mut visit);
    }
    pair.print("tables damaged");
    assert!(pair.sound > 1_000 && pair.torn > 10_000);
}

/// Lengths one more, one less, cut anywhere, none; and open over each of these.
#[test]
fn lengths_and_counts() {
    let mut pair = Pair::new();
    for (seed, mut list) in pools(120, 20) {
        let (buffers, pieces, slips) = list.shape;
        let mut arguments = Random::new(seed);
        let mut visit = |what: &str, pool: &[u8], storage: &[u8]| {
            let from = format!("seed {seed}, shape {:?}, {what}", list.shape);
            pair.compare_all(&from, &mut arguments, pool, storage);
            let opening = Call::Open {
                buffers,
                pieces,
                slips,
            };
            pair.compare(&from, pool, storage, &opening);
        };
        damage::lengths_wrong(&mut list.random, &list.pool, &list.storage, &mut visit);
        damage::counts_shifted(&list.pool, &list.storage, &mut visit);
        visit("whole", &list.pool, &list.storage);
    }
    let mut arguments = Random::new(5);
    let mut visit = |what: &str, pool: &[u8], storage: &[u8]| {
        pair.compare_all(what, &mut arguments, pool, storage);
        let word = |at: usize| u16::from_le_bytes([pool[at], pool[at + 1]]);
        let opening = Call::Open {
            buffers: word(5),
            pieces: word(7),
            slips: word(9),
        };
        pair.compare(what, pool, storage, &opening);
    };
    damage::counts_out_of_range(&mut visit);
    pair.print("lengths and counts");
    assert!(pair.sound > 100 && pair.torn > 1_000);
}

/// The largest pools, sparse, full, scattered and shared: every kind of look at some of the slips, and damage at the borders.
#[test]
fn largest_pools() {
    let mut pair = Pair::new();
    for (what, mut list) in largest() {
        let tables = Tables::parse(&list.pool, &list.storage).expect("sound");
        let last = LARGEST.2 - 1;
        for number in [0, 1, 2, last / 2, last - 1, last, last + 1] {
            let slip = named(&tables, number);
            pair.compare(what, &list.pool, &list.storage, &Call::Length { slip });
            for call in looks(&mut list.random, &tables, slip) {
                pair.compare(what, &list.pool, &list.storage, &call);
            }
        }
        let slip = tables.name(last);
        let mut visit = |damage: &str, pool: &[u8], storage: &[u8]| {
            let from = format!("{what}, {damage}");
            pair.compare(&from, pool, storage, &Call::Audit);
            pair.compare(&from, pool, storage, &Call::Length { slip });
        };
        visit("whole", &list.pool, &list.storage);
        damage::borders(&list.pool, &list.storage, &mut visit);
    }
    pair.print("largest pools");
    assert!(pair.sound > 10 && pair.torn > 300);
}

/// Random bits, words and bytes.
#[test]
fn random_bytes() {
    let mut pair = Pair::new();
    for (seed, mut list) in pools(400, 40) {
        let shape = list.shape;
        let mut arguments = Random::new(seed);
        let mut visit = |what: &str, pool: &[u8], storage: &[u8]| {
            let from = format!("seed {seed}, shape {shape:?}, {what}");
            pair.compare_all(&from, &mut arguments, pool, storage);
        };
        damage::random_bytes(&mut list.random, &list.pool, &list.storage, &mut visit);
    }
    pair.print("random bytes");
    assert!(pair.sound > 300 && pair.torn > 5_000);
}

/// Every table of a few words each, for the smallest shapes: the audit is right on both sides.
#[test]
fn every_small_pool() {
    let mut pair = Pair::new();
    let mut visit = |pool: &[u8], storage: &[u8]| {
        pair.compare("small pool", pool, storage, &Call::Audit);
        let slip = Name::from(0);
        pair.compare("small pool", pool, storage, &Call::Length { slip });
    };
    // Words of one slip and its serial, then of count, buffer, offset, length and next, then of a buffer count.
    let far = LAST as u16;
    let one = [
        &[0, 1, 2, 3, far][..],
        &[0, 1, far][..],
        &[0, 1, 2][..],
        &[0, 1][..],
        &[0, 1, 511, 512, far][..],
        &[0, 1, 2, 511, 512, 513, far][..],
        &[0, 1, 2, far][..],
        &[0, 1, 2, far][..],
    ];
    every_pool((1, 1, 1), &one, &mut visit);
    let piece = [
        &[0, 1, 2, 3][..],
        &[0, 1][..],
        &[0][..],
        &[0, 1][..],
        &[0, 1, 2, 3][..],
    ];
    let slip = &[0, 1, 2, 3, 4][..];
    let count = &[0, 1, 2, 3][..];
    let (serial, far_too) = (&[0][..], [0, far]);
    let two = [
        &[slip, &far_too, slip, serial][..],
        &piece,
        &piece,
        &[count],
    ]
    .concat();
    every_pool((1, 2, 2), &two, &mut visit);
    // Three pieces on one buffer: every way in which they may point at each other.
    let free_or_used = [count, &[0], &[0], &[1], &[0, 1, 2, 3]];
    let three = [
        &[&[0, 2, 3, 4][..], serial, &[0, 4][..], serial][..],
        &free_or_used,
        &free_or_used,
        &free_or_used,
        &[&[0, 1, 2, 3][..]],
    ]
    .concat();
    every_pool((1, 3, 2), &three, &mut visit);
    pair.print("small pools");
    assert!(pair.sound > 50 && pair.torn > 100_000);
}

/// All pools of the shape whose words are drawn from these lists, each with its storage.
fn every_pool(shape: Shape, lists: &[&[u16]], visit: &mut dyn FnMut(&[u8], &[u8])) {
    let (b, p, s) = shape;
    assert_eq!(lists.len(), (2 * s + 5 * p + b) as usize);
    let storage = vec![3; 512 * b as usize];
    let mut turn = vec![0; lists.len()];
    loop {
        let words: Vec<u16> = lists.iter().zip(&turn).map(|(l, i)| l[*i]).collect();
        let mut pool = b"SLP".to_vec();
        for word in [VERSION as u16, b, p, s].iter().chain(&words) {
            pool.extend(word.to_le_bytes());
        }
        // Where the list fixes the length, a piece with count 0 gets none, so that it can be free.
        for d in 0..p as usize {
            let at = 11 + 4 * s as usize + 10 * d;
            if pool[at] == 0 && lists[2 * s as usize + 5 * d + 3].len() == 1 {
                pool[at + 6] = 0;
            }
        }
        visit(&pool, &storage);
        // The next choice of words, the last place turning fastest.
        let Some(place) = (0..lists.len())
            .rev()
            .find(|i| turn[*i] + 1 < lists[*i].len())
        else {
            return;
        };
        turn[place] += 1;
        turn[place + 1..].fill(0);
    }
}

/// Open writes the fresh pool over any bytes, with every count in and out of its range.
#[test]
fn open_of_every_shape() {
    let mut pair = Pair::new();
    let mut random = Random::new(setting("FULCRUMNEST_SEED", 3));
    let mut shapes: Vec<Shape> = SHAPES.to_vec();
    shapes.extend((0..200).map(|_| random::shape(&mut random)));
    for shape in shapes {
        let (pool, storage) = random::unopened(&mut random, shape);
        let (b, p, s) = shape;
        for (buffers, pieces, slips) in [
            (b, p, s),
            (b + 1, p, s),
            (b, p + 1, s),
            (b, p, s + 1),
            (b - 1, p, s),
            (b, p - 1, s),
            (b, p, s - 1),
            (b, p.wrapping_sub(2), s + 5),
            (b, p + 2, s.wrapping_sub(5)),
            (b.wrapping_sub(5), p + 1, s),
            (s, p, b),
            (0, p, s),
            (LARGEST.0 + 1, LARGEST.1 + 1, LARGEST.2 + 1),
            (u16::MAX, u16::MAX, u16::MAX),
        ] {
            let call = Call::Open {
                buffers,
                pieces,
                slips,
            };
            let from = format!("shape {shape:?}");
            pair.compare(&from, &pool, &storage, &call);
            let opened = TRUE.step(&pool, &storage, &call);
            pair.compare(&from, &opened.pool, &opened.storage, &Call::Audit);
        }
    }
    pair.print("open");
    assert!(pair.sound > 200 && pair.torn > 1_000);
}

/// A pool whose slip 0 is empty, whose slip 1 has 600 bytes, and whose slip 2 is vacant.
fn empty_and_held() -> List {
    let mut list = List::start(1, Some((2, 3, 3)));
    for data in [Vec::new(), vec![5; 600]] {
        let put = TRUE.step(&list.pool, &list.storage, &Call::Put { data });
        list.take(put);
    }
    list
}

/// Empty slices with a null pointer are lent like any others.
#[test]
fn null_pointers() {
    let list = empty_and_held();
    let (mut pool, storage) = (list.pool.clone(), list.storage.clone());
    let (at, size) = (pool.as_ptr(), pool.len());
    let (stored, room) = (storage.as_ptr(), storage.len());
    let pair = |answer: ffi::Answer| (answer.code, answer.number);
    // The pointers come from live slices or are null with length 0.
    unsafe {
        assert_eq!(pair(ffi::slp_audit(null(), 0, null(), 0)), (2, 0));
        assert_eq!(pair(ffi::slp_audit(at, size, null(), 0)), (2, 0));
        assert_eq!(pair(ffi::slp_audit(null(), 0, stored, room)), (2, 0));
        assert_eq!(pair(ffi::slp_audit(at, size, stored, room)), (0, 0));
        assert_eq!(pair(ffi::slp_length(null(), 0, null(), 0, 0, 0)), (2, 0));
        assert_eq!(
            pair(ffi::slp_open(null_mut(), 0, null_mut(), 0, 1, 1, 1)),
            (1, 0)
        );
        assert_eq!(
            pair(ffi::slp_open(
                pool.as_mut_ptr(),
                size,
                null_mut(),
                0,
                2,
                3,
                3
            )),
            (1, 0)
        );
        // Slip 0 is empty, slip 1 has 600 bytes.
        for (slip, serial, offset, length, wanted) in [
            (0, 0, 0, 0, (0, 0)),
            (1, 0, 0, 0, (0, 0)),
            (1, 1, 0, 0, (3, 0)),
            (1, 0, 600, 0, (0, 0)),
            (1, 0, 601, 0, (6, 0)),
            (1, 0, 0, 1, (7, 0)),
            (2, 0, 0, 0, (3, 0)),
        ] {
            let (output, none) = (null_mut(), 0);
            let answer = ffi::slp_read(
                at, size, stored, room, slip, serial, offset, length, output, none,
            );
            assert_eq!(pair(answer), wanted);
        }
        for (slip, serial, n, wanted) in [
            (0, 0, 0, (0, 0, 0, 0)),
            (1, 0, 0, (0, 0, 0, 0)),
            (1, 0, 512, (0, 512, 0, 0)),
            (1, 65_535, 512, (3, 0, 0, 0)),
            (1, 0, 513, (5, 0, 0, 0)),
            (0, 0, 1, (6, 0, 0, 0)),
            (2, 0, 0, (3, 0, 0, 0)),
        ] {
            let shown = ffi::slp_show(at, size, stored, room, slip, serial, n, null_mut(), 0);
            let got = (shown.code, shown.number, shown.in_scratch, shown.start);
            assert_eq!(got, wanted);
        }
        let shown = ffi::slp_show(null(), 0, null(), 0, 0, 0, 0, null_mut(), 0);
        assert_eq!((shown.code, shown.number), (2, 0));
    }
    assert_eq!((pool, storage), (list.pool, list.storage));
}

/// List and stretches with a null pointer for an empty list.
#[test]
fn null_pointers_of_lists() {
    let list = empty_and_held();
    let (at, size) = (list.pool.as_ptr(), list.pool.len());
    let (stored, room) = (list.storage.as_ptr(), list.storage.len());
    let pair = |answer: ffi::Answer| (answer.code, answer.number);
    // The pointers come from live slices or are null with length 0.
    unsafe {
        for (slip, serial, code) in [(0, 0, 0), (0, 1, 3), (1, 0, 7), (1, 1, 3), (2, 0, 3)] {
            let answer = ffi::slp_list(at, size, stored, room, slip, serial, null_mut(), 0);
            assert_eq!(pair(answer), (code, 0));
            let answer = ffi::slp_stretches(at, size, stored, room, slip, serial, null_mut(), 0);
            assert_eq!(pair(answer), (code, 0));
        }
        let answer = ffi::slp_list(null(), 0, null(), 0, 0, 0, null_mut(), 0);
        assert_eq!(pair(answer), (2, 0));
        let answer = ffi::slp_stretches(null(), 0, null(), 0, 0, 0, null_mut(), 0);
        assert_eq!(pair(answer), (2, 0));
    }
}

/// Gather with a null pointer for each of its empty slices.
#[test]
fn null_pointers_of_gather() {
    let (storage, list) = ([1u8, 2, 3], [1u32, 2]);
    let (stored, listed) = (storage.as_ptr(), list.as_ptr());
    let mut output = [9u8; 4];
    let out = output.as_mut_ptr();
    let pair = |gathered: ffi::Gathered| (gathered.code, gathered.number);
    // The pointers come from live slices or are null with length 0.
    unsafe {
        let none = ffi::slp_gather(null(), 0, null(), 0, null_mut(), 0);
        assert_eq!(pair(none), (0, 0));
        let unlisted = ffi::slp_gather(stored, 3, null(), 0, out, 4);
        assert_eq!(pair(unlisted), (0, 0));
        let unstored = ffi::slp_gather(null(), 0, listed, 2, out, 4);
        assert_eq!(pair(unstored), (11, 0));
        let narrow = ffi::slp_gather(stored, 3, listed, 2, null_mut(), 0);
        assert_eq!(pair(narrow), (7, 0));
        let lone = ffi::slp_gather(stored, 3, listed, 1, null_mut(), 0);
        assert_eq!(pair(lone), (0, 0));
        let done = ffi::slp_gather(stored, 3, listed, 2, out, 4);
        assert_eq!(pair(done), (0, 2));
    }
    assert_eq!(output, [2, 3, 9, 9]);
}

/// The view of a done show holds the bytes that the model reads from the front of the chain, the
/// view of a refused one none: every slip and one past them, counts to past the end.
#[test]
fn view_holds_what_the_model_reads() {
    let mut seen = [0, 0, 0];
    for (seed, list) in pools(200, 40) {
        let tables = Tables::parse(&list.pool, &list.storage).expect("sound");
        for number in 0..=tables.slips.len() as u16 {
            let name = named(&tables, number);
            let (held, slip) = (tables.held(name), slip_of(name));
            let bytes = held.map(|held| tables.read(&list.storage, &tables.chain(held)));
            let whole = bytes.as_ref().map_or(0, |bytes| bytes.len() as u32);
            for n in [0, 1, whole / 2, whole, whole + 1, 512, 513] {
                let mut scratch = [0xA5; 512];
                let shown = calls::show(&list.pool, &list.storage, slip, n, &mut scratch);
                let view = shown.view(&list.storage, &scratch);
                let front = bytes.as_ref().and_then(|bytes| bytes.get(..n as usize));
                let wanted = front.filter(|_| n <= 512);
                assert_eq!(shown.code == 0, wanted.is_some(), "seed {seed}");
                assert_eq!(view, wanted.unwrap_or_default(), "seed {seed}");
                let kind = if wanted.is_none() {
                    2
                } else {
                    shown.in_scratch
                };
                seen[kind as usize] += 1;
            }
        }
    }
    assert!(seen.iter().all(|n| *n > 100), "{seen:?}");
}

/// The view that show answers holds the bytes that read gives.
#[test]
fn view_reads_the_same() {
    let mut views = [0, 0];
    for (seed, list) in pools(200, 40) {
        let tables = Tables::parse(&list.pool, &list.storage).expect("sound");
        for number in 0..tables.slips.len() as u16 {
            let slip = slip_of(tables.name(number));
            let whole = calls::length(&list.pool, &list.storage, slip);
            if whole.code != 0 {
                continue;
            }
            let n = whole.number.min(512);
            let mut scratch = [0; 512];
            let mut output = [0; 512];
            let shown = calls::show(&list.pool, &list.storage, slip, n, &mut scratch);
            let read = calls::read(&list.pool, &list.storage, slip, 0, n, &mut output);
            assert_eq!((shown.code, shown.number), (0, n), "seed {seed}");
            assert_eq!((read.code, read.number), (0, n), "seed {seed}");
            let view = shown.view(&list.storage, &scratch);
            assert_eq!(view, &output[..n as usize], "seed {seed}");
            views[shown.in_scratch as usize] += 1;
        }
    }
    assert!(views[0] > 50 && views[1] > 50, "{views:?}");
}
