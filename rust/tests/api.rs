//! The safe interface: each method done and refused, its views, its texts, and beside the model.
#![cfg(fulcrumnest_lib)]

mod common;

use std::error::Error;

use common::desk::data;
use common::model::{Call, Name, Outcome, View, NO_VIEW};
use common::morning::{self, Chain, MORNING};
use common::random::SHAPES;
use common::sequence::{pools, run_lists, setting};
use common::wire;
use fulcrumnest::{
    pool_length, storage_length, Fault, NotASlip, Picture, Pool, Refusal, Shape, Slip, Stretch,
    BUFFER_LENGTH,
};

const SHAPE: Shape = Shape {
    buffers: 4,
    pieces: 6,
    slips: 4,
};

/// The lent memory of a pool.
struct Memory {
    pool: Vec<u8>,
    storage: Vec<u8>,
}

impl Memory {
    fn new(shape: Shape) -> Memory {
        Memory {
            pool: vec![0xDD; pool_length(shape)],
            storage: vec![0xEE; storage_length(shape.buffers)],
        }
    }

    fn open(&mut self, shape: Shape) -> Pool<'_> {
        Pool::open(&mut self.pool, &mut self.storage, shape).expect("the lengths that it asks")
    }

    fn attach(&mut self) -> Pool<'_> {
        Pool::attach(&mut self.pool, &mut self.storage).expect("a sound pool")
    }
}

/// A pool of this shape, and what is done with it.
fn with(buffers: u16, pieces: u16, slips: u16, work: impl FnOnce(Pool<'_>)) {
    let shape = Shape {
        buffers,
        pieces,
        slips,
    };
    work(Memory::new(shape).open(shape));
}

/// The slip of this number at serial 0.
fn nth(number: u16) -> Slip {
    Slip::new(number, 0)
}

/// The slip that the model names.
fn named(name: Name) -> Slip {
    Slip::new(name.number, name.serial)
}

fn bytes(pool: &Pool<'_>, slip: Slip) -> Vec<u8> {
    let length = pool.length(slip).expect("a held slip");
    let mut output = vec![0; length as usize];
    let read = pool.read(slip, 0, length, &mut output);
    read.expect("the whole chain").to_vec()
}

#[test]
fn open() {
    let mut memory = Memory::new(SHAPE);
    let pool = memory.open(SHAPE);
    assert_eq!(pool.shape(), SHAPE);
    assert_eq!(pool.audit(), Ok(()));
    let mut fresh = b"SLP\x02\x00\x04\x00\x06\x00\x04\x00".to_vec();
    fresh.resize(95, 0);
    assert_eq!(memory.pool, fresh);
    assert!(memory.storage.iter().all(|byte| *byte == 0xEE));
}

#[test]
fn open_refused() {
    let most = Shape::MOST;
    for (buffers, pieces, slips) in [
        (0, 6, 4),
        (4, 0, 4),
        (4, 6, 0),
        (most.buffers + 1, 6, 4),
        (4, most.pieces + 1, 4),
        (4, 6, most.slips + 1),
    ] {
        let shape = Shape {
            buffers,
            pieces,
            slips,
        };
        let mut memory = Memory::new(shape);
        let refused = Pool::open(&mut memory.pool, &mut memory.storage, shape);
        assert_eq!(refused.unwrap_err(), Refusal::Counts, "{shape:?}");
        assert!(memory.pool.iter().all(|byte| *byte == 0xDD));
        assert!(!shape.in_range());
    }
    let mut memory = Memory::new(SHAPE);
    let short = Pool::open(&mut memory.pool[1..], &mut memory.storage, SHAPE);
    assert_eq!(short.unwrap_err(), Refusal::Counts);
    let short = Pool::open(&mut memory.pool, &mut memory.storage[..2047], SHAPE);
    assert_eq!(short.unwrap_err(), Refusal::Counts);
    let none = Pool::open(&mut [], &mut [], SHAPE);
    assert_eq!(none.unwrap_err(), Refusal::Counts);
}

/// The lengths are those that open takes, for every shape that is tried.
#[test]
fn lengths() {
    for &(buffers, pieces, slips) in SHAPES {
        with(buffers, pieces, slips, |pool| {
            assert!(pool.shape().in_range());
            assert_eq!(pool.audit(), Ok(()));
        });
    }
    assert_eq!(pool_length(SHAPE), 95);
    assert_eq!(pool_length(Shape::MOST), 11 + 1_024 + 20_480 + 2_048);
    assert_eq!(storage_length(Shape::MOST.buffers), 524_288);
}

#[test]
fn attach() {
    let mut memory = Memory::new(SHAPE);
    let slip = memory.open(SHAPE).put(b"kept").unwrap();
    let pool = Pool::attach(&mut memory.pool, &mut memory.storage).unwrap();
    assert_eq!(bytes(&pool, slip), b"kept");
    assert_eq!(pool.shape(), SHAPE);
    // Any byte that is off tears the pool, but for the serials of the slips and the offset and the
    // length of a piece in use.
    let mut sound = Vec::new();
    for at in 0..memory.pool.len() {
        let mut other = memory.pool.clone();
        other[at] ^= 0x81;
        let before = other.clone();
        let refused = Pool::attach(&mut other, &mut memory.storage).err();
        assert_eq!(other, before);
        let fault = Picture::new(&other, &memory.storage).fault();
        match (refused, fault) {
            (Some(Refusal::Torn), Some(_)) => (),
            (None, None) => sound.push(at),
            differ => panic!("byte {at}: {differ:?}"),
        }
    }
    assert_eq!(sound, [13, 14, 17, 18, 21, 22, 25, 26, 31, 33]);
    let none = Pool::attach(&mut [], &mut []);
    assert_eq!(none.unwrap_err(), Refusal::Torn);
}

#[test]
fn put() {
    with(4, 6, 4, |mut pool| {
        assert_eq!(pool.put(&data(2049)), Err(Refusal::Buffers));
        assert_eq!(pool.put(&data(600)), Ok(nth(0)));
        assert_eq!(bytes(&pool, nth(0)), data(600));
        assert_eq!(pool.put(&[]), Ok(nth(1)));
        assert_eq!(pool.length(nth(1)), Ok(0));
    });
    with(2, 1, 2, |mut pool| {
        assert_eq!(pool.put(&data(513)), Err(Refusal::Pieces));
        assert_eq!(pool.put(&data(512)), Ok(nth(0)));
        assert_eq!(pool.put(&[]), Ok(nth(1)));
        assert_eq!(pool.put(&[]), Err(Refusal::Slips));
    });
}

#[test]
fn free() {
    with(4, 6, 4, |mut pool| {
        let slip = pool.put(&data(2048)).unwrap();
        assert_eq!(pool.put(b"more"), Err(Refusal::Buffers));
        assert_eq!(pool.free(slip), Ok(()));
        assert_eq!(pool.free(slip), Err(Refusal::Slip));
        assert_eq!(pool.free(nth(4)), Err(Refusal::Slip));
        assert_eq!(pool.free(nth(u16::MAX)), Err(Refusal::Slip));
        assert_eq!(pool.put(b"more"), Ok(Slip::new(slip.number, 1)));
        assert_eq!(pool.free(slip), Err(Refusal::Slip));
    });
}

#[test]
fn dup() {
    with(4, 3, 3, |mut pool| {
        let slip = pool.put(&data(600)).unwrap();
        assert_eq!(pool.dup(slip), Ok(nth(1)));
        assert_eq!(bytes(&pool, nth(1)), data(600));
        assert_eq!(pool.dup(nth(2)), Err(Refusal::Slip));
        assert_eq!(pool.dup(slip), Err(Refusal::Pieces));
        assert_eq!(pool.put(&[]), Ok(nth(2)));
        assert_eq!(pool.dup(slip), Err(Refusal::Slips));
    });
}

#[test]
fn cut() {
    with(4, 4, 3, |mut pool| {
        let slip = pool.put(&data(600)).unwrap();
        assert_eq!(pool.cut(slip, 500, 50), Ok(nth(1)));
        assert_eq!(bytes(&pool, nth(1)), data(600)[500..550]);
        assert_eq!(pool.cut(nth(2), 0, 0), Err(Refusal::Slip));
        assert_eq!(pool.cut(slip, 600, 1), Err(Refusal::Range));
        assert_eq!(pool.cut(slip, 601, 0), Err(Refusal::Range));
        assert_eq!(pool.cut(slip, 1, u32::MAX), Err(Refusal::Range));
        assert_eq!(pool.cut(slip, 0, 1), Err(Refusal::Pieces));
        assert_eq!(pool.cut(slip, 600, 0), Ok(nth(2)));
        assert_eq!(pool.cut(slip, 0, 0), Err(Refusal::Slips));
    });
}

#[test]
fn append() {
    with(4, 5, 4, |mut pool| {
        let (a, b) = (pool.put(b"one, ").unwrap(), pool.put(b"two").unwrap());
        let other = pool.dup(a).unwrap();
        assert_eq!(pool.append(a, a), Err(Refusal::Same));
        assert_eq!(pool.append(a, nth(3)), Err(Refusal::Slip));
        assert_eq!(pool.append(nth(9), nth(9)), Err(Refusal::Slip));
        assert_eq!(pool.append(a, b), Ok(()));
        assert_eq!(bytes(&pool, a), b"one, two");
        assert_eq!(bytes(&pool, other), b"one, ");
        assert_eq!(pool.length(b), Err(Refusal::Slip));
    });
    with(3, 3, 3, |mut pool| {
        let a = pool.put(&data(1)).unwrap();
        pool.dup(a).unwrap();
        let b = pool.put(&data(1)).unwrap();
        // The first slip's head is its own: nothing is wanted, though no piece is free.
        assert_eq!(pool.append(a, b), Ok(()));
    });
}

/// Two slips run into one piece behind their heads: to change it behind one of them wants a piece.
fn shared(pool: &mut Pool<'_>) -> (Slip, Slip) {
    let slip = pool.put(&data(600)).unwrap();
    let other = pool.dup(slip).unwrap();
    (slip, other)
}

#[test]
fn append_wants_pieces() {
    with(4, 4, 3, |mut pool| {
        let (slip, other) = shared(&mut pool);
        let more = pool.put(b"more").unwrap();
        assert_eq!(pool.append(slip, more), Err(Refusal::Pieces));
        assert_eq!(pool.length(more), Ok(4));
        pool.free(other).unwrap();
        assert_eq!(pool.append(slip, more), Ok(()));
        assert_eq!(pool.length(slip), Ok(604));
    });
}

#[test]
fn drop_bytes() {
    with(4, 3, 3, |mut pool| {
        let (slip, other) = shared(&mut pool);
        assert_eq!(pool.drop(nth(2), 0), Err(Refusal::Slip));
        assert_eq!(pool.drop(slip, 601), Err(Refusal::Range));
        assert_eq!(pool.drop(slip, 512), Ok(()));
        assert_eq!(bytes(&pool, slip), data(600)[512..]);
        assert_eq!(bytes(&pool, other), data(600));
        assert_eq!(pool.drop(slip, 88), Ok(()));
        assert_eq!(pool.length(slip), Ok(0));
    });
}

#[test]
fn drop_wants_pieces() {
    with(4, 3, 3, |mut pool| {
        let (slip, other) = shared(&mut pool);
        // No piece is free, and the own one in front is given back.
        assert_eq!(pool.drop(slip, 520), Ok(()));
        assert_eq!(bytes(&pool, slip), data(600)[520..]);
        assert_eq!(bytes(&pool, other), data(600));
    });
    with(4, 3, 3, |mut pool| {
        let (slip, other) = shared(&mut pool);
        pool.drop(slip, 512).unwrap();
        let third = pool.dup(other).unwrap();
        // The slip heads the shared piece, in front of which nothing is.
        assert_eq!(pool.drop(slip, 8), Err(Refusal::Pieces));
        pool.free(third).unwrap();
        assert_eq!(pool.drop(slip, 8), Ok(()));
        assert_eq!(bytes(&pool, slip), data(600)[520..]);
    });
}

#[test]
fn keep() {
    with(4, 3, 3, |mut pool| {
        let (slip, other) = shared(&mut pool);
        assert_eq!(pool.keep(nth(2), 0), Err(Refusal::Slip));
        assert_eq!(pool.keep(slip, 601), Err(Refusal::Range));
        assert_eq!(pool.keep(slip, 599), Err(Refusal::Pieces));
        assert_eq!(pool.keep(slip, 600), Ok(()));
        assert_eq!(pool.keep(slip, 500), Ok(()));
        assert_eq!(bytes(&pool, slip), data(500));
        assert_eq!(bytes(&pool, other), data(600));
        assert_eq!(pool.keep(slip, 0), Ok(()));
        assert_eq!(pool.length(slip), Ok(0));
    });
}

#[test]
fn pullup() {
    with(4, 6, 4, |mut pool| {
        let slip = pool.put(&data(10)).unwrap();
        let rest = pool.put(&data(600)).unwrap();
        assert_eq!(pool.append(slip, rest), Ok(()));
        let before = bytes(&pool, slip);
        assert_eq!(pool.show(slip, 20, &mut []), Err(Refusal::Narrow));
        assert_eq!(pool.pullup(slip, 20), Ok(()));
        assert_eq!(pool.show(slip, 20, &mut []).unwrap(), &before[..20]);
        assert_eq!(bytes(&pool, slip), before);
        assert_eq!(pool.pullup(nth(1), 0), Err(Refusal::Slip));
        assert_eq!(pool.pullup(slip, 513), Err(Refusal::Long));
        let short = pool.put(&data(5)).unwrap();
        assert_eq!(pool.pullup(short, 6), Err(Refusal::Range));
        assert_eq!(pool.pullup(short, 513), Err(Refusal::Long));
    });
    with(3, 2, 2, |mut pool| {
        let (slip, rest) = (pool.put(b"a").unwrap(), pool.put(b"b").unwrap());
        pool.append(slip, rest).unwrap();
        assert_eq!(pool.pullup(slip, 2), Ok(()));
        assert_eq!(pool.show(slip, 2, &mut []).unwrap(), b"ab");
    });
    with(3, 3, 2, |mut pool| {
        let (slip, rest) = (pool.put(b"ab").unwrap(), pool.put(b"cd").unwrap());
        pool.append(slip, rest).unwrap();
        let other = pool.dup(slip).unwrap();
        // Two are wanted, and one is given back.
        assert_eq!(pool.pullup(slip, 3), Err(Refusal::Pieces));
        assert_eq!(pool.pullup(slip, 4), Ok(()));
        assert_eq!(bytes(&pool, other), b"abcd");
    });
    with(2, 4, 2, |mut pool| {
        let (slip, rest) = (pool.put(b"a").unwrap(), pool.put(b"b").unwrap());
        pool.append(slip, rest).unwrap();
        assert_eq!(pool.pullup(slip, 2), Err(Refusal::Buffers));
        assert_eq!(bytes(&pool, slip), b"ab");
    });
}

#[test]
fn pack() {
    with(4, 6, 4, |mut pool| {
        let (slip, rest) = (pool.put(b"one ").unwrap(), pool.put(b"piece").unwrap());
        pool.append(slip, rest).unwrap();
        assert_eq!(pool.pack(slip), Ok(()));
        assert_eq!(pool.show(slip, 9, &mut []).unwrap(), b"one piece");
        assert_eq!(pool.pack(nth(1)), Err(Refusal::Slip));
    });
    with(3, 2, 2, |mut pool| {
        let (slip, rest) = (pool.put(b"a").unwrap(), pool.put(b"b").unwrap());
        pool.append(slip, rest).unwrap();
        assert_eq!(pool.pack(slip), Err(Refusal::Pieces));
    });
    with(2, 4, 2, |mut pool| {
        let (slip, rest) = (pool.put(b"a").unwrap(), pool.put(b"b").unwrap());
        pool.append(slip, rest).unwrap();
        assert_eq!(pool.pack(slip), Err(Refusal::Buffers));
    });
}

#[test]
fn length() {
    with(4, 6, 4, |mut pool| {
        let slip = pool.put(&data(600)).unwrap();
        assert_eq!(pool.length(slip), Ok(600));
        assert_eq!(pool.length(nth(1)), Err(Refusal::Slip));
        assert_eq!(pool.length(nth(4)), Err(Refusal::Slip));
    });
}

#[test]
fn read() {
    with(4, 6, 4, |mut pool| {
        let slip = pool.put(&data(600)).unwrap();
        let mut output = [0x99; 40];
        let read = pool.read(slip, 500, 30, &mut output).unwrap();
        assert_eq!(read, &data(600)[500..530]);
        assert_eq!(output[30..], [0x99; 10]);
        let mut output = [0x99; 40];
        for (slip, offset, length, refusal) in [
            (nth(1), 0, 0, Refusal::Slip),
            (slip, 600, 1, Refusal::Range),
            (slip, 601, 0, Refusal::Range),
            (slip, u32::MAX, 2, Refusal::Range),
            (slip, 0, 41, Refusal::Narrow),
        ] {
            let refused = pool.read(slip, offset, length, &mut output);
            assert_eq!(refused, Err(refusal));
        }
        assert_eq!(output, [0x99; 40]);
        assert_eq!(pool.read(slip, 600, 0, &mut []).unwrap(), b"");
    });
}

/// A view is a part of storage where the first piece has the bytes, and else of the scratch.
#[test]
fn show() {
    let mut memory = Memory::new(SHAPE);
    let storage = memory.storage.as_ptr_range();
    let mut pool = memory.open(SHAPE);
    let slip = pool.put(&data(10)).unwrap();
    let rest = pool.put(&data(600)).unwrap();
    pool.append(slip, rest).unwrap();
    let mut scratch = [0x99; BUFFER_LENGTH];
    let place = scratch.as_ptr_range();

    let view = pool.show(slip, 10, &mut scratch).unwrap();
    assert_eq!(view, data(10));
    assert!(storage.contains(&view.as_ptr()));
    assert_eq!(scratch, [0x99; BUFFER_LENGTH]);

    let view = pool.show(slip, 20, &mut scratch).unwrap();
    assert_eq!(view, [data(10), data(10)].concat());
    assert!(place.contains(&view.as_ptr()));
    assert_eq!(scratch[20..], [0x99; BUFFER_LENGTH - 20]);

    // Two views of one pool at a time, and each lives as long as pool and its own scratch.
    let (mut one, mut other) = ([0; 512], [0; 512]);
    let first = pool.show(slip, 20, &mut one).unwrap();
    let second = pool.show(slip, 10, &mut other).unwrap();
    assert_eq!(first[..10], second[..]);

    let mut small = [0x99; 19];
    assert_eq!(pool.show(slip, 20, &mut small), Err(Refusal::Narrow));
    assert_eq!(pool.show(slip, 513, &mut small), Err(Refusal::Long));
    assert_eq!(pool.show(nth(1), 0, &mut small), Err(Refusal::Slip));
    assert_eq!(small, [0x99; 19]);
    assert_eq!(pool.show(slip, 0, &mut []).unwrap(), b"");
    let short = pool.put(b"short").unwrap();
    assert_eq!(pool.show(short, 6, &mut small), Err(Refusal::Range));
}

/// A view outlives the borrow of the pool's name, not the pool: it can be handed back.
#[test]
fn views_are_handed_back() {
    fn front<'v>(pool: &'v Pool<'_>, slip: Slip, scratch: &'v mut [u8]) -> &'v [u8] {
        pool.show(slip, 4, scratch).unwrap_or_default()
    }
    with(4, 6, 4, |mut pool| {
        let slip = pool.put(b"front and rest").unwrap();
        assert_eq!(front(&pool, slip, &mut [0; 4]), b"fron");
        assert_eq!(front(&pool, nth(3), &mut [0; 4]), b"");
    });
}

/// The memory after row 2 of the morning, whose slips are the whole and a part of it.
fn whole_and_part() -> (Memory, [&'static Chain; 2]) {
    let desk = morning::after(step, 2);
    let memory = Memory {
        pool: desk.pool,
        storage: desk.storage,
    };
    let [whole, part] = MORNING[1].chains else {
        panic!("row 2 has two slips");
    };
    (memory, [whole, part])
}

#[test]
fn list() {
    let (mut memory, [whole, part]) = whole_and_part();
    let mut pool = memory.attach();
    let mut numbers = vec![0x99; part.list.len() + 3];
    let written = pool.list(named(part.slip), &mut numbers).unwrap();
    assert_eq!(written, part.list);
    assert_eq!(numbers[part.list.len()..], [0x99; 3]);
    let old = vec![0x99; whole.list.len() - 1];
    let mut numbers = old.clone();
    let narrow = pool.list(named(whole.slip), &mut numbers);
    assert_eq!(narrow, Err(Refusal::Narrow));
    assert_eq!(pool.list(nth(2), &mut numbers), Err(Refusal::Slip));
    assert_eq!(pool.list(nth(4), &mut []), Err(Refusal::Slip));
    assert_eq!(numbers, old);
    let empty = pool.put(&[]).unwrap();
    assert_eq!(pool.list(empty, &mut []).unwrap(), [0; 0]);
    assert_eq!(pool.list(empty, &mut numbers).unwrap(), [0; 0]);
}

#[test]
fn stretches() {
    let (mut memory, [whole, part]) = whole_and_part();
    let mut pool = memory.attach();
    let stretch = |two: &[u32]| Stretch {
        position: two[0],
        length: two[1],
    };
    let old = stretch(&[7, 9]);
    let wanted: Vec<Stretch> = part.list.chunks(2).map(stretch).collect();
    let mut records = vec![old; wanted.len() + 1];
    let written = pool.stretches(named(part.slip), &mut records).unwrap();
    assert_eq!(written, wanted);
    assert_eq!(records[wanted.len()], old);
    let mut records = vec![old; whole.list.len() / 2 - 1];
    let before = records.clone();
    let narrow = pool.stretches(named(whole.slip), &mut records);
    assert_eq!(narrow, Err(Refusal::Narrow));
    assert_eq!(pool.stretches(nth(2), &mut records), Err(Refusal::Slip));
    assert_eq!(records, before);
    let empty = pool.put(&[]).unwrap();
    assert_eq!(pool.stretches(empty, &mut []).unwrap(), []);
}

/// The bytes of a list, by the pool's storage and by the lent memory when the pool is given up.
#[test]
fn gather() {
    let (mut memory, [_, part]) = whole_and_part();
    let pool = memory.attach();
    let wanted = part.bytes();
    let mut numbers = vec![0; part.list.len() + 4];
    let mut output = vec![0x99; wanted.len() + 2];
    let list = pool.list(named(part.slip), &mut numbers).unwrap();
    let copied = fulcrumnest::gather(pool.storage(), list, &mut output).unwrap();
    assert_eq!(copied, wanted);
    assert_eq!(output[wanted.len()..], [0x99; 2]);
    let copied = fulcrumnest::gather(&memory.storage, list, &mut output).unwrap();
    assert_eq!(copied, wanted);

    let mut output = [0x99; 9];
    for (list, refusal) in [
        (&[0, 10][..], Refusal::Narrow),
        (&[0, 10, 0, 0], Refusal::Narrow),
        (&[0, u32::MAX, 0, 1], Refusal::Narrow),
        (&[0, 0], Refusal::List),
        (&[0, 1, 2047, 2], Refusal::List),
        (&[u32::MAX, 1], Refusal::List),
    ] {
        let refused = fulcrumnest::gather(&memory.storage, list, &mut output);
        assert_eq!(refused, Err(refusal), "{list:?}");
    }
    assert_eq!(output, [0x99; 9]);
    assert_eq!(fulcrumnest::gather(&[], &[7], &mut []).unwrap(), b"");
}

/// Each call that gives buffers back leaves them zero, and the others as they were.
#[test]
fn given_back_is_clean() {
    let mut memory = Memory::new(SHAPE);
    let mut pool = memory.open(SHAPE);
    let buffers = |pool: &Pool<'_>| {
        let whole = pool.storage().chunks(BUFFER_LENGTH);
        let zero = |buffer: &[u8]| buffer.iter().all(|byte| *byte == 0);
        whole.map(zero).collect::<Vec<bool>>()
    };
    let slip = pool.put(&[7; 1_024]).unwrap();
    let part = pool.cut(slip, 500, 30).unwrap();
    assert_eq!(buffers(&pool), [false; 4]);
    assert_eq!(pool.drop(slip, 600), Ok(()));
    assert_eq!(buffers(&pool), [false; 4]);
    assert_eq!(pool.drop(part, 12), Ok(()));
    assert_eq!(buffers(&pool), [true, false, false, false]);
    assert_eq!(pool.append(part, slip), Ok(()));
    assert_eq!(buffers(&pool), [true, false, false, false]);
    assert_eq!(pool.pullup(part, 442), Ok(()));
    assert_eq!(buffers(&pool), [false, true, false, false]);
    assert_eq!(bytes(&pool, part), [7; 442]);
    let rest = pool.put(&[8; 80]).unwrap();
    assert_eq!(pool.append(part, rest), Ok(()));
    assert_eq!(pool.pack(part), Ok(()));
    assert_eq!(buffers(&pool), [true, true, false, false]);
    assert_eq!(bytes(&pool, part), [vec![7; 442], vec![8; 80]].concat());
    assert_eq!(pool.keep(part, 512), Ok(()));
    assert_eq!(buffers(&pool), [true, true, false, true]);
    assert_eq!(pool.free(part), Ok(()));
    assert_eq!(pool.storage(), [0; 2_048]);
}

/// A refused call leaves every byte of pool and storage.
#[test]
fn refusals_change_nothing() {
    let mut memory = Memory::new(SHAPE);
    let mut pool = memory.open(SHAPE);
    let (slip, _) = shared(&mut pool);
    pool.put(&data(1024)).unwrap();
    let before = (memory.pool.clone(), memory.storage.clone());
    let mut pool = Pool::attach(&mut memory.pool, &mut memory.storage).unwrap();
    assert_eq!(pool.put(&data(513)), Err(Refusal::Pieces));
    assert_eq!(pool.free(nth(3)), Err(Refusal::Slip));
    assert_eq!(pool.cut(slip, 0, 600), Err(Refusal::Pieces));
    assert_eq!(pool.append(slip, slip), Err(Refusal::Same));
    assert_eq!(pool.drop(slip, 601), Err(Refusal::Range));
    assert_eq!(pool.keep(slip, 601), Err(Refusal::Range));
    assert_eq!(pool.pullup(slip, 513), Err(Refusal::Long));
    assert_eq!(pool.pack(slip), Err(Refusal::Pieces));
    assert_eq!(pool.list(slip, &mut [0; 3]), Err(Refusal::Narrow));
    assert_eq!(pool.storage(), before.1);
    assert_eq!((memory.pool, memory.storage), before);
}

/// A slip is printed and read as its number, with its serial where that is not 0.
#[test]
fn slips_as_text() {
    for (slip, text) in [
        (Slip::new(0, 0), "0"),
        (Slip::new(3, 0), "3"),
        (Slip::new(2, 1), "2.1"),
        (Slip::new(0, 65_535), "0.65535"),
        (Slip::new(65_535, 65_535), "65535.65535"),
    ] {
        assert_eq!(slip.to_string(), text);
        assert_eq!(text.parse(), Ok(slip));
    }
    // Other writings of the same slips.
    for (text, slip) in [("3.0", nth(3)), ("03", nth(3)), ("2.01", Slip::new(2, 1))] {
        assert_eq!(text.parse(), Ok(slip), "{text}");
    }
    for text in [
        "",
        ".",
        "2.",
        ".1",
        "2.1.",
        "2..1",
        "2.1.0",
        " 2",
        "2 ",
        "2 .1",
        "2. 1",
        "+2",
        "-2",
        "2.+1",
        "2.-1",
        "x",
        "2.x",
        "0x2",
        "2,1",
        "2:1",
        "slip 2",
        "65536",
        "2.65536",
        "65536.1",
        "1e1",
        "99999999999999999999",
        "\u{662}",
        "\n2",
    ] {
        assert_eq!(text.parse::<Slip>(), Err(NotASlip), "{text:?}");
    }
    let error: Box<dyn Error> = Box::new(NotASlip);
    let text = "not a slip: NUMBER or NUMBER.SERIAL, each 0 to 65535";
    assert_eq!(error.to_string(), text);
}

/// The number that is answered for a slip, and back.
#[test]
fn slips_as_answers() {
    for (slip, answer) in [
        (Slip::new(0, 0), 0),
        (Slip::new(65_535, 0), 65_535),
        (Slip::new(0, 1), 65_536),
        (Slip::new(3, 7), 3 + 65_536 * 7),
        (Slip::new(255, 65_534), 255 + 65_536 * 65_534),
        (Slip::new(65_535, 65_535), u32::MAX),
    ] {
        assert_eq!(slip.answer(), answer);
        assert_eq!(Slip::from_answer(answer), slip);
    }
    // By number and then by serial.
    assert!(Slip::new(1, 9) < Slip::new(2, 0) && Slip::new(2, 0) < Slip::new(2, 1));
}

/// Every call refuses this name, and changes nothing.
fn refused_everywhere(pool: &mut Pool<'_>, old: Slip, held: Slip) {
    let before = pool.picture().to_string();
    let no = Refusal::Slip;
    let (mut output, mut list) = ([0x99; 8], [0x99; 8]);
    assert_eq!(pool.free(old), Err(no));
    assert_eq!(pool.dup(old), Err(no));
    assert_eq!(pool.cut(old, 0, 0), Err(no));
    assert_eq!(pool.append(old, held), Err(no));
    assert_eq!(pool.append(held, old), Err(no));
    assert_eq!(pool.append(old, old), Err(no));
    assert_eq!(pool.drop(old, 0), Err(no));
    assert_eq!(pool.keep(old, 0), Err(no));
    assert_eq!(pool.pullup(old, 0), Err(no));
    assert_eq!(pool.pack(old), Err(no));
    assert_eq!(pool.length(old), Err(no));
    assert_eq!(pool.read(old, 0, 0, &mut output), Err(no));
    assert_eq!(pool.show(old, 0, &mut output), Err(no));
    assert_eq!(pool.list(old, &mut list), Err(no));
    assert_eq!(pool.stretches(old, &mut []), Err(no));
    assert_eq!((output, list), ([0x99; 8], [0x99; 8]));
    assert_eq!(pool.picture().to_string(), before);
}

/// A name that was given up is refused by every call, while its slip is vacant and when it is held
/// by another.
#[test]
fn old_names() {
    with(4, 6, 3, |mut pool| {
        let old = pool.put(&data(600)).unwrap();
        let held = pool.dup(old).unwrap();
        pool.free(old).unwrap();
        refused_everywhere(&mut pool, old, held);
        // Nor is a vacant slip held by the name that it is given next.
        refused_everywhere(&mut pool, Slip::new(0, 1), held);
        let new = pool.put(b"another").unwrap();
        assert_eq!(new, Slip::new(0, 1));
        refused_everywhere(&mut pool, old, held);
        refused_everywhere(&mut pool, Slip::new(0, 2), held);
        // append is the other call that gives one up, also where either side is empty.
        pool.append(held, new).unwrap();
        refused_everywhere(&mut pool, new, held);
        let empty = pool.put(b"").unwrap();
        assert_eq!(empty, Slip::new(0, 2));
        pool.append(held, empty).unwrap();
        let empty = pool.put(b"").unwrap();
        assert_eq!(empty, Slip::new(0, 3));
        pool.append(empty, held).unwrap();
        assert_eq!(pool.length(empty), Ok(607));
        assert_eq!(pool.cut(empty, 0, 1), Ok(Slip::new(1, 1)));
        refused_everywhere(&mut pool, held, empty);
    });
}

/// append judges both names first, and then whether the numbers are one.
#[test]
fn append_by_number_and_serial() {
    with(4, 6, 4, |mut pool| {
        let old = pool.put(b"old").unwrap();
        pool.free(old).unwrap();
        let new = pool.put(b"new").unwrap();
        assert_eq!(new.number, old.number);
        assert_eq!(pool.append(new, old), Err(Refusal::Slip));
        assert_eq!(pool.append(old, new), Err(Refusal::Slip));
        assert_eq!(pool.append(new, new), Err(Refusal::Same));
    });
}

/// Sets the serial of each slip by hand.
fn set_serials(memory: &mut Memory, serials: &[u16]) {
    for (slip, serial) in serials.iter().enumerate() {
        memory.pool[13 + 4 * slip..][..2].copy_from_slice(&serial.to_le_bytes());
    }
}

/// A vacant slip at the last serial is spent: not given again and no room, until an open.
#[test]
fn spent_slips() {
    let last = Slip::LAST_SERIAL;
    let mut memory = Memory::new(SHAPE);
    memory.open(SHAPE);
    set_serials(&mut memory, &[last, last - 1, last, 7]);
    let mut pool = memory.attach();
    let slip = pool.put(&data(600)).unwrap();
    assert_eq!(slip, Slip::new(1, last - 1));
    assert_eq!(pool.dup(slip), Ok(Slip::new(3, 7)));
    assert_eq!(pool.put(&[]), Err(Refusal::Slips));
    assert_eq!(pool.dup(slip), Err(Refusal::Slips));
    assert_eq!(pool.cut(slip, 0, 0), Err(Refusal::Slips));
    refused_everywhere(&mut pool, Slip::new(0, last), slip);
    pool.free(slip).unwrap();
    refused_everywhere(&mut pool, Slip::new(1, last), Slip::new(3, 7));
    assert_eq!(pool.put(&[]), Err(Refusal::Slips));

    // Held at the last serial, as bytes may have it, a slip is as good as any; given up, it is spent.
    set_serials(&mut memory, &[last, last, last, last]);
    let mut pool = memory.attach();
    let slip = Slip::new(3, last);
    assert_eq!(bytes(&pool, slip), data(600));
    assert_eq!(pool.free(slip), Ok(()));
    assert_eq!(pool.free(slip), Err(Refusal::Slip));
    assert_eq!(pool.put(&[]), Err(Refusal::Slips));
    assert_eq!(pool.audit(), Ok(()));
    assert_eq!(memory.pool[11..27], [[0, 0, 255, 255]; 4].concat());
    assert_eq!(memory.open(SHAPE).put(&[]), Ok(nth(0)));
}

#[test]
fn texts() {
    for refusal in Refusal::ALL.iter().copied() {
        let (code, word, meaning) = (refusal.code(), refusal.word(), refusal.meaning());
        let text = format!("{code} {word}: {meaning}");
        assert_eq!(refusal.to_string(), text);
        assert_eq!(Refusal::from_code(code), Some(refusal));
        let error: Box<dyn Error> = Box::new(refusal);
        assert_eq!(error.to_string(), text);
    }
    assert!(Refusal::ALL.windows(2).all(|pair| pair[0] < pair[1]));
    assert_eq!(Refusal::from_code(0), None);
    assert_eq!(Refusal::from_code(Refusal::ALL.len() as u16 + 1), None);
    with(4, 6, 4, |pool| {
        let text = "Pool { shape: Shape { buffers: 4, pieces: 6, slips: 4 }, .. }";
        assert_eq!(format!("{pool:?}"), text);
    });
}

/// Errors pass through `?`, with those of the standard library too.
#[test]
fn errors_pass() -> Result<(), Box<dyn Error>> {
    let mut memory = Memory::new(SHAPE);
    let mut pool = Pool::open(&mut memory.pool, &mut memory.storage, SHAPE)?;
    let slip = pool.put(b"12")?;
    let mut output = [0; 2];
    let amount: u32 = std::str::from_utf8(pool.read(slip, 0, 2, &mut output)?)?.parse()?;
    assert_eq!(amount, 12);
    let fault: Option<Fault> = pool.picture().fault();
    assert_eq!(fault, None);
    Ok(())
}

/// One call by the safe interface on copies of the lent bytes.
fn step(pool: &[u8], storage: &[u8], call: &Call) -> Outcome {
    let (mut pool, mut storage) = (pool.to_vec(), storage.to_vec());
    let (mut lent, mut list) = (call.lent().to_vec(), call.list());
    let answer = match call {
        Call::List { .. } | Call::Stretches { .. } | Call::Gather { .. } => {
            listing(&mut pool, &mut storage, &mut lent, &mut list, call)
        }
        _ => answer(&mut pool, &mut storage, &mut lent, call),
    };
    let (code, (number, view)) = match answer {
        Ok(done) => (0, done),
        Err(refusal) => (refusal.code(), (0, NO_VIEW)),
    };
    Outcome {
        code,
        number,
        view,
        pool,
        storage,
        lent,
        list,
    }
}

/// A call that is lent a list.
fn listing(
    pool: &mut [u8],
    storage: &mut [u8],
    lent: &mut [u8],
    list: &mut [u32],
    call: &Call,
) -> Result<(u64, View), Refusal> {
    let number = match call {
        Call::List { slip, .. } => {
            let numbers = Pool::attach(pool, storage)?.list(named(*slip), list)?.len();
            assert_eq!(numbers % 2, 0);
            numbers / 2
        }
        Call::Stretches { slip, .. } => {
            let record = |two: &[u32]| Stretch {
                position: two[0],
                length: two[1],
            };
            let mut records: Vec<Stretch> = list.chunks(2).map(record).collect();
            let pool = Pool::attach(pool, storage)?;
            let written = pool.stretches(named(*slip), &mut records).map(<[_]>::len);
            for (two, record) in list.chunks_mut(2).zip(records) {
                two.copy_from_slice(&[record.position, record.length]);
            }
            written?
        }
        _ => fulcrumnest::gather(storage, list, lent)?.len(),
    };
    Ok((number as u64, NO_VIEW))
}

fn answer(
    pool: &mut [u8],
    storage: &mut [u8],
    lent: &mut [u8],
    call: &Call,
) -> Result<(u64, View), Refusal> {
    if let Call::Open {
        buffers,
        pieces,
        slips,
    } = *call
    {
        let shape = Shape {
            buffers,
            pieces,
            slips,
        };
        return Pool::open(pool, storage, shape).map(|_| (0, NO_VIEW));
    }
    let start = storage.as_ptr() as usize;
    let scratch = lent.as_ptr_range();
    let mut pool = Pool::attach(pool, storage)?;
    let slipped = |slip: Slip| u64::from(slip.answer());
    let number = match call {
        Call::Open { .. } | Call::Audit => pool.audit().map(|()| 0)?,
        Call::Put { data } => pool.put(data).map(slipped)?,
        Call::Free { slip } => pool.free(named(*slip)).map(|()| 0)?,
        Call::Dup { slip } => pool.dup(named(*slip)).map(slipped)?,
        Call::Cut {
            slip,
            offset,
            length,
        } => pool.cut(named(*slip), *offset, *length).map(slipped)?,
        Call::Append { a, b } => pool.append(named(*a), named(*b)).map(|()| 0)?,
        Call::Drop { slip, n } => pool.drop(named(*slip), *n).map(|()| 0)?,
        Call::Keep { slip, n } => pool.keep(named(*slip), *n).map(|()| 0)?,
        Call::Pullup { slip, n } => pool.pullup(named(*slip), *n).map(|()| 0)?,
        Call::Pack { slip } => pool.pack(named(*slip)).map(|()| 0)?,
        Call::Length { slip } => pool.length(named(*slip)).map(u64::from)?,
        Call::Read {
            slip,
            offset,
            length,
            ..
        } => pool.read(named(*slip), *offset, *length, lent)?.len() as u64,
        Call::Show { slip, n, .. } => {
            let view = pool.show(named(*slip), *n, lent)?;
            let in_scratch = *n > 0 && scratch.contains(&view.as_ptr());
            let from = if in_scratch {
                scratch.start as usize
            } else {
                start
            };
            let start = (view.as_ptr() as usize - from) as u64;
            return Ok((view.len() as u64, View { in_scratch, start }));
        }
        Call::List { .. } | Call::Stretches { .. } | Call::Gather { .. } => {
            unreachable!("made above")
        }
    };
    Ok((number, NO_VIEW))
}

paper_cases!(step);

/// Random lists by the safe interface: code, number, view and every byte as the model has them.
#[test]
fn random_lists() {
    let calls = setting("FULCRUMNEST_CALLS", 1_000_000) / 10;
    let seed = setting("FULCRUMNEST_SEED", 2_000_000);
    let tally = run_lists(Some(step), seed, calls, SHAPES);
    assert_eq!(tally.calls, calls);
}

/// Gathers by the safe interface, and the law that joins list, stretches and gather.
#[test]
fn random_gathers() {
    let calls = setting("FULCRUMNEST_CALLS", 1_000_000) / 40;
    let seed = setting("FULCRUMNEST_SEED", 2_000_000);
    wire::all_met(wire::run_gathers(step, seed, calls), calls);
    let laws = pools(40, 40).map(|(_, mut list)| wire::law(step, &mut list));
    assert!(laws.map(|times| times[0].min(times[1])).sum::<u64>() > 100);
}
