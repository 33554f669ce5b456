//! Pictures: the text, the drawing, and torn pools, of which each is told and none is trusted.
#![cfg(fulcrumnest_lib)]

mod common;

use common::damage;
use common::desk::data;
use common::library;
use common::model::Tables;
use common::morning;
use common::random::{Random, LARGEST, SHAPES};
use common::sequence::{setting, List};
use common::xml::{self, Element};
use fulcrumnest::{calls, Picture, Pool, Shape, Slip};

/// A pool of these counts after some work.
fn drawn(buffers: u16, pieces: u16, slips: u16, work: impl FnOnce(&mut Pool<'_>)) -> String {
    let shape = Shape {
        buffers,
        pieces,
        slips,
    };
    let mut pool = vec![0; fulcrumnest::pool_length(shape)];
    let mut storage = vec![0; fulcrumnest::storage_length(buffers)];
    let mut pool = Pool::open(&mut pool, &mut storage, shape).unwrap();
    work(&mut pool);
    pool.picture().to_string()
}

#[test]
fn lengths_are_aligned_and_counts_marked() {
    let mut desk = morning::after(library::step, 3);
    desk.put(0, 3);
    let text = Picture::new(&desk.pool, &desk.storage).to_string();
    let wanted = "\
slip 0  600 bytes  p0[b0 0+512] > p1[b1 0+88]x2
slip 1   50 bytes  p2[b0 500+12] > p3[b1 0+38]
slip 2  600 bytes  p4[b0 0+512] > p1[b1 0+88]x2
slip 3    0 bytes  empty
buffers  b0 x3  b1 x2  b2 free  b3 free
pieces   5 in use, 1 free";
    assert_eq!(text, wanted);
}

#[test]
fn vacant_slips_at_the_end() {
    let fresh = "slip 0  vacant\nslip 1  vacant\nbuffers  b0 free\npieces   0 in use, 3 free";
    assert_eq!(drawn(1, 3, 2, |_| ()), fresh);
    // Up to eight slips have a line each; of more, the vacant ones at the end have one line.
    assert_eq!(drawn(1, 3, 8, |_| ()).lines().count(), 10);
    let fresh = "slips 0 to 63  vacant\nbuffers  b0 free\npieces   0 in use, 3 free";
    assert_eq!(drawn(1, 3, 64, |_| ()), fresh);
    let text = drawn(1, 3, 12, |pool| {
        for _ in 0..11 {
            pool.put(&[]).unwrap();
        }
        pool.free(Slip::new(1, 0)).unwrap();
    });
    let lines: Vec<&str> = text.lines().collect();
    assert_eq!(lines[0], "slip 0    0 bytes  empty");
    assert_eq!(lines[1], "slip 1.1  vacant");
    assert_eq!(lines[10], "slip 10   0 bytes  empty");
    assert_eq!(lines[11], "slip 11   vacant");
}

/// A pool of so many slips and what it holds at these serials: slip 0 a part of what slip 1 holds.
fn at_serials(slips: u16, serials: &[u16]) -> (Vec<u8>, Vec<u8>) {
    let shape = Shape {
        buffers: 4,
        pieces: 6,
        slips,
    };
    let mut pool = vec![0; fulcrumnest::pool_length(shape)];
    let mut storage = vec![0; fulcrumnest::storage_length(4)];
    let mut open = Pool::open(&mut pool, &mut storage, shape).unwrap();
    let first = open.put(&data(600)).unwrap();
    let second = open.dup(first).unwrap();
    open.free(first).unwrap();
    open.cut(second, 500, 50).unwrap();
    for (slip, serial) in serials.iter().enumerate() {
        pool[13 + 4 * slip..][..2].copy_from_slice(&serial.to_le_bytes());
    }
    (pool, storage)
}

/// A slip is named with its serial where that is not 0; a spent one, which is vacant, is marked.
#[test]
fn serials_and_spent_slips() {
    let (pool, storage) = at_serials(4, &[]);
    let wanted = "\
slip 0.1   50 bytes  p0[b0 500+12] > p3[b1 0+38]
slip 1    600 bytes  p2[b0 0+512] > p1[b1 0+88]
slip 2    vacant
slip 3    vacant
buffers  b0 x2  b1 x2  b2 free  b3 free
pieces   4 in use, 2 free";
    assert_eq!(Picture::new(&pool, &storage).to_string(), wanted);
    let (pool, storage) = at_serials(4, &[1, 65_535, 65_535, 65_534]);
    let wanted = "\
slip 0.1       50 bytes  p0[b0 500+12] > p3[b1 0+38]
slip 1.65535  600 bytes  p2[b0 0+512] > p1[b1 0+88]
slip 2.65535  vacant and spent: not given again until an open
slip 3.65534  vacant
buffers  b0 x2  b1 x2  b2 free  b3 free
pieces   4 in use, 2 free";
    assert_eq!(Picture::new(&pool, &storage).to_string(), wanted);
}

/// At the end of a large pool only vacant slips at serial 0 share a line.
#[test]
fn vacant_slips_with_serials() {
    let (pool, storage) = at_serials(12, &[0, 0, 0, 0, 0, 0, 0, 0, 65_535, 3]);
    let text = Picture::new(&pool, &storage).to_string();
    let lines: Vec<&str> = text.lines().collect();
    assert_eq!(lines[7], "slip 7        vacant");
    let spent = "slip 8.65535  vacant and spent: not given again until an open";
    assert_eq!(lines[8], spent);
    assert_eq!(lines[9], "slip 9.3      vacant");
    assert_eq!(lines[10], "slips 10 to 11  vacant");
    assert_eq!(lines.len(), 13);
}

/// The drawing has each serial that is not 0 under its slip, and says which slips are spent.
#[test]
fn serials_in_the_drawing() {
    let (pool, storage) = at_serials(4, &[0; 4]);
    let svg = Picture::new(&pool, &storage).svg().to_string();
    assert!(!svg.contains("serial") && !svg.contains("spent"));
    let (pool, storage) = at_serials(4, &[1, 65_535, 65_535, 7]);
    let svg = Picture::new(&pool, &storage).svg().to_string();
    let count = |text: &str| svg.matches(text).count();
    assert_eq!(count(">serial 1<") + count(">serial 7<"), 2);
    assert_eq!(count(">serial 65535<"), 2);
    assert_eq!(
        count(">vacant and spent: not given again until an open<"),
        1
    );
    assert_eq!(count(">vacant<"), 1);
    assert_eq!(boxes(&svg).len(), 4);
    apart(&boxes(&svg), &svg);
}

/// One box for each piece in use, and each in the lane of a slip.
fn boxes(svg: &str) -> Vec<Element> {
    let elements = xml::elements(svg).unwrap_or_else(|wrong| panic!("{wrong}\n{svg}"));
    assert_eq!(elements[0].name, "svg");
    assert!(elements.iter().all(|e| e.name != "script"));
    let piece = |e: &Element| e.name == "rect" && e.is("piece");
    elements.into_iter().filter(piece).collect()
}

/// No two boxes lie on each other, and all lie in the drawing.
fn apart(boxes: &[Element], svg: &str) {
    let number = |e: &Element, name: &str| -> i64 {
        let text = e.attribute(name).expect("an attribute of a box");
        text.parse().expect("a number")
    };
    let root = &xml::elements(svg).expect("well formed")[0];
    let (wide, high) = (number(root, "width"), number(root, "height"));
    for (k, e) in boxes.iter().enumerate() {
        let (x, y) = (number(e, "x"), number(e, "y"));
        assert!(x + number(e, "width") <= wide && y + number(e, "height") <= high);
        for other in &boxes[k + 1..] {
            let (dx, dy) = (x - number(other, "x"), y - number(other, "y"));
            let (w, h) = (number(e, "width"), number(e, "height"));
            assert!(dx.abs() >= w || dy.abs() >= h, "two boxes at {x}, {y}");
        }
    }
}

/// Sound pools of all shapes: no fault, as many boxes as pieces in use, as many arrows as
/// references.
#[test]
fn sound_pools() {
    for seed in 0..60 * setting("FULCRUMNEST_TIMES", 1).max(1) {
        let mut list = List::start(seed, SHAPES.get(seed as usize).copied());
        list.run(80 + 3 * list.shape.1 as u64);
        let picture = Picture::new(&list.pool, &list.storage);
        assert_eq!(picture.fault(), None, "seed {seed}");
        let text = picture.to_string();
        let tables = Tables::parse(&list.pool, &list.storage).expect("sound");
        let used = tables.pieces.iter().filter(|q| q.count > 0).count();
        let free = tables.pieces.len() - used;
        let last = text.lines().last().expect("a line");
        assert_eq!(last, format!("pieces   {used} in use, {free} free"));
        assert!(!text.contains("torn") && !text.contains('('));
        let svg = picture.svg().to_string();
        let boxes = boxes(&svg);
        assert_eq!(boxes.len(), used, "seed {seed}");
        apart(&boxes, &svg);
        let references: u64 = tables.pieces.iter().map(|q| q.count).sum();
        let arrows = svg.matches("class=\"arrow\"").count();
        assert_eq!(arrows as u64, references, "seed {seed}");
        let stretches = svg.matches("class=\"stretch\"").count();
        assert_eq!(stretches, used, "seed {seed}");
    }
}

/// The text of each held slip has the chain's length and its pieces in order.
#[test]
fn slips_as_the_model_has_them() {
    for seed in 100..160 {
        let mut list = List::start(seed, None);
        list.run(120);
        let text = Picture::new(&list.pool, &list.storage).to_string();
        let tables = Tables::parse(&list.pool, &list.storage).expect("sound");
        for slip in 0..tables.slips.len() as u16 {
            let slip = tables.name(slip);
            let Some(state) = tables.held(slip) else {
                continue;
            };
            let chain = tables.chain(state);
            let piece = |d: &usize| {
                let q = &tables.pieces[*d];
                let mark = match q.count {
                    1 => String::new(),
                    count => format!("x{count}"),
                };
                format!("p{d}[b{} {}+{}]{mark}", q.buffer, q.offset, q.length)
            };
            let pieces: Vec<String> = chain.iter().map(piece).collect();
            let wanted = match pieces.is_empty() {
                true => "0 bytes  empty".to_string(),
                false => format!("{} bytes  {}", tables.length(&chain), pieces.join(" > ")),
            };
            let slip = Slip::new(slip.number, slip.serial);
            let name = format!("slip {slip} ");
            let line = text.lines().find(|line| line.starts_with(&name));
            let line = line.unwrap_or_else(|| panic!("seed {seed}: no {name}"));
            assert_eq!(line[name.len()..].trim_start(), wanted, "seed {seed}");
        }
    }
}

/// Damaged pools: torn in the picture exactly where the library's audit says so, and drawn.
#[test]
fn torn_pools() {
    let (mut sound, mut torn, mut longest) = (0, 0, 0);
    let mut visit = |what: &str, pool: &[u8], storage: &[u8]| {
        let picture = Picture::new(pool, storage);
        let code = calls::audit(pool, storage).code;
        let fault = picture.fault();
        assert_eq!(fault.is_some(), code == 2, "{what}: {fault:?}\n{picture}");
        let text = picture.to_string();
        let last = text.lines().last().expect("a line");
        assert_eq!(last.starts_with("torn     "), code == 2, "{what}:\n{text}");
        longest = longest.max(text.len());
        match code {
            0 => sound += 1,
            _ => torn += 1,
        }
        if torn % 16 == 0 {
            let svg = picture.svg().to_string();
            apart(&boxes(&svg), &svg);
        }
    };
    damage::counts_out_of_range(&mut visit);
    for seed in 0..30 * setting("FULCRUMNEST_TIMES", 1).max(1) {
        let mut list = List::start(seed, (seed < 13).then(|| SHAPES[seed as usize]));
        list.run(60);
        let mut random = Random::new(seed);
        damage::every_damage(&mut random, &list.pool, &list.storage, &mut visit);
    }
    println!("{sound} sound, {torn} torn, the longest drawing {longest} bytes");
    assert!(sound > 1_000 && torn > 10_000);
    assert!(longest < Shape::MOST.slips as usize * Shape::MOST.pieces as usize * 32);
}

/// Where every piece is next of the one before and the last comes back to the first, each chain is
/// drawn once round, in the largest pool too.
#[test]
fn a_ring_of_all_pieces() {
    let words = |words: &[u16]| -> Vec<u8> { words.iter().flat_map(|w| w.to_le_bytes()).collect() };
    let (b, p, s) = LARGEST;
    let mut pool = [b"SLP".to_vec(), words(&[2, b, p, s])].concat();
    for slip in 0..s {
        pool.extend(words(&[2 + slip, 0]));
    }
    for d in 0..p {
        let next = 1 + (d + 1) % p;
        pool.extend(words(&[u16::MAX, 2_000, u16::MAX, u16::MAX, next]));
    }
    pool.resize(pool.len() + 2 * b as usize, 0xFF);
    let storage = vec![0; 512 * b as usize];
    let picture = Picture::new(&pool, &storage);
    let text = picture.to_string();
    assert_eq!(text.lines().count(), s as usize + 3);
    let first = text.lines().next().expect("a line");
    assert!(first.starts_with("slip 0    134215680 bytes  p0[b2000 65535+65535]x65535 > p1["));
    assert!(first.ends_with("p2047[b2000 65535+65535]x65535 > p0 (again)"));
    assert_eq!(
        text.lines().last(),
        Some("torn     piece 0 lies on buffer 2000, which is none")
    );
    let svg = picture.svg().to_string();
    let boxes = boxes(&svg);
    assert_eq!(boxes.len(), p as usize);
    apart(&boxes, &svg);
}

/// Any bytes at all can be drawn.
#[test]
fn any_bytes() {
    let mut random = Random::new(setting("FULCRUMNEST_SEED", 5));
    for length in (0..400).chain([3_083, 23_563, 100_000]) {
        let pool = random.bytes(length);
        let storage = random.bytes(length % 7 * 512);
        let picture = Picture::new(&pool, &storage);
        assert!(picture.to_string().starts_with("torn     "));
        assert!(boxes(&picture.svg().to_string()).is_empty());
        assert!(picture.fault().is_some());
    }
}

#[test]
fn faults_in_words() {
    let shape = Shape {
        buffers: 2,
        pieces: 4,
        slips: 2,
    };
    let mut pool = vec![0; fulcrumnest::pool_length(shape)];
    let mut storage = vec![0; 1024];
    let mut open = Pool::open(&mut pool, &mut storage, shape).unwrap();
    let slip = open.put(&data(600)).unwrap();
    open.dup(slip).unwrap();
    // Pieces 0, 1 and 2 are in use; 0 and 2 have piece 1 next. Slips 0 and 1 head 0 and 2.
    let entry = |d: usize, field: usize| 19 + 10 * d + 2 * field;
    for (at, word, text) in [
        (3, 1, "the version is 1, not 2"),
        (3, 3, "the version is 3, not 2"),
        (
            9,
            257,
            "a count is outside its range: 2 buffers, 4 pieces, 257 slips",
        ),
        (9, 3, "the pool has 63 bytes, its counts ask 67"),
        (entry(3, 2), 9, "piece 3 has count 0 and is not all zero"),
        (entry(0, 1), 2, "piece 0 lies on buffer 2, which is none"),
        (entry(0, 3), 0, "piece 0 has length 0"),
        (entry(0, 2), 1, "piece 0 ends at 513 of 512"),
        (entry(1, 2), 65_535, "piece 1 ends at 65623 of 512"),
        (entry(1, 4), 5, "piece 1 has piece 4 next, which is none"),
        (entry(1, 4), 4, "piece 1 has piece 3 next, which is free"),
        (11, 6, "slip 0 heads piece 4, which is none"),
        (11, 5, "slip 0 heads piece 3, which is free"),
        (entry(1, 0), 3, "piece 1 has count 3, references 2"),
        (59, 1, "buffer 0 has count 1, pieces 2"),
    ] {
        let mut torn = pool.clone();
        torn[at..at + 2].copy_from_slice(&u16::to_le_bytes(word));
        let fault = Picture::new(&torn, &storage).fault().expect(text);
        assert_eq!(fault.to_string(), text);
        assert_eq!(calls::audit(&torn, &storage).code, 2, "{text}");
    }
    // A ring that keeps every count: piece 1 has itself next.
    let mut torn = pool.clone();
    torn[entry(1, 4)] = 2;
    torn[entry(1, 0)] = 3;
    let fault = Picture::new(&torn, &storage).fault().expect("a ring");
    assert_eq!(fault.to_string(), "following next from piece 0 comes back");
    let cases: [(&[u8], &[u8], &str); 3] = [
        (
            &pool[..10],
            &storage,
            "the pool has 10 bytes, its header alone 11",
        ),
        (
            &pool[1..],
            &storage,
            "the pool doesn't begin with the mark SLP",
        ),
        (
            &pool,
            &storage[1..],
            "storage has 1023 bytes, its buffers ask 1024",
        ),
    ];
    for (pool, storage, text) in cases {
        let fault = Picture::new(pool, storage).fault().expect(text);
        assert_eq!(fault.to_string(), text);
    }
}
