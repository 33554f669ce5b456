//! Pools damaged in every way, from a sound one.

use super::model::{pool_length, Piece, Slip, Tables, LAST, MOST, VERSION};
use super::random::Random;

/// What a damaged pool is handed to: a word on the damage, the pool, the storage.
pub type Visit<'a> = &'a mut dyn FnMut(&str, &[u8], &[u8]);

fn set(pool: &mut [u8], at: usize, word: u64) {
    pool[at..at + 2].copy_from_slice(&(word as u16).to_le_bytes());
}

/// Each byte of the mark and each field of header, slips, pieces and buffer counts off by one.
pub fn fields_off_by_one(pool: &[u8], storage: &[u8], visit: Visit) {
    for at in 0..3 {
        for by in [1, 255] {
            let mut damaged = pool.to_vec();
            damaged[at] = damaged[at].wrapping_add(by);
            visit(&format!("mark byte {at} off by one"), &damaged, storage);
        }
    }
    for at in (3..pool.len()).step_by(2) {
        let word = u16::from_le_bytes([pool[at], pool[at + 1]]);
        for off in [word.wrapping_add(1), word.wrapping_sub(1)] {
            let mut damaged = pool.to_vec();
            set(&mut damaged, at, off as u64);
            visit(&format!("{word} at {at} is {off}"), &damaged, storage);
        }
    }
}

/// Pools whose tables are damaged in one place, in ways that counts alone may not show.
pub fn tables_damaged(random: &mut Random, pool: &[u8], storage: &[u8], visit: Visit) {
    let tables = Tables::parse(pool, storage).expect("a sound pool to damage");
    let p = tables.pieces.len();
    let free: Vec<usize> = (0..p).filter(|d| tables.pieces[*d].count == 0).collect();
    let used: Vec<usize> = (0..p).filter(|d| tables.pieces[*d].count > 0).collect();
    let mut try_with = |what: String, change: &dyn Fn(&mut Tables)| {
        let mut damaged = tables.clone();
        change(&mut damaged);
        visit(&what, &damaged.bytes(), storage);
    };

    // Slips that head what they may not, with and without the counts made to agree.
    for s in 0..tables.slips.len() {
        for d in free.iter().take(1).chain(&[p, p + 1, 65_533]) {
            try_with(format!("slip {s} heads {d}"), &|t| {
                t.slips[s] = Slip::Heads(*d);
            });
        }
        for d in used.iter().take(2) {
            try_with(format!("slip {s} heads {d} in use"), &|t| {
                t.slips[s] = Slip::Heads(*d);
            });
            try_with(format!("slip {s} heads {d} in use, counted"), &|t| {
                if let Slip::Heads(old) = t.slips[s] {
                    t.pieces[old].count -= 1;
                }
                t.slips[s] = Slip::Heads(*d);
                t.pieces[*d].count += 1;
            });
        }
        try_with(format!("slip {s} is vacant"), &|t| {
            t.slips[s] = Slip::Vacant;
        });
        try_with(format!("slip {s} is empty"), &|t| {
            t.slips[s] = Slip::Empty;
        });
    }

    for &d in &used {
        // Next to a free piece, past the table, to itself, to another piece.
        let other = random.pick(&used);
        for next in free.iter().take(1).chain(&[p, p + 1, 65_534, d, other]) {
            try_with(format!("piece {d} has next {next}"), &|t| {
                t.pieces[d].next = Some(*next);
            });
        }
        for next in free.iter().take(1) {
            try_with(
                format!("piece {d} has next {next}, free, with a count"),
                &|t| {
                    t.pieces[d].next = Some(*next);
                    t.pieces[*next].count = 1;
                },
            );
        }
        try_with(format!("piece {d} has no next"), &|t| {
            t.pieces[d].next = None;
        });
        // The same next moves, its counts made to agree: a ring if it leads back.
        try_with(format!("piece {d} has next {other}, counted"), &|t| {
            if let Some(old) = t.pieces[d].next {
                t.pieces[old].count -= 1;
            }
            t.pieces[d].next = Some(other);
            t.pieces[other].count += 1;
        });

        // Places on the buffer: past its end, past 65,535, of no length, and just fitting.
        let length = tables.pieces[d].length;
        for (offset, length) in [
            (513 - length, length),
            (512 - length, length),
            (512, 1),
            (512, 0),
            (513, 0),
            (0, 0),
            (0, 512),
            (0, 513),
            (1, 512),
            (65_535, 1),
            (65_535, 2),
            (65_536 - length, length),
            (1, 65_535),
            (65_535, 65_535),
            (32_768, 32_768),
        ] {
            try_with(format!("piece {d} at {offset}, length {length}"), &|t| {
                t.pieces[d].offset = offset;
                t.pieces[d].length = length;
            });
        }
        for buffer in [tables.buffers.len(), tables.buffers.len() + 1, 65_535] {
            try_with(format!("piece {d} on buffer {buffer}"), &|t| {
                t.pieces[d].buffer = buffer;
            });
        }
        let to = random.below(tables.buffers.len() as u64) as usize;
        try_with(format!("piece {d} moved to buffer {to}, counted"), &|t| {
            t.buffers[t.pieces[d].buffer] -= 1;
            t.pieces[d].buffer = to;
            t.buffers[to] += 1;
        });
        for count in [0, 2, 256, 65_535] {
            try_with(format!("piece {d} has count {count}"), &|t| {
                t.pieces[d].count = count;
            });
        }
    }

    // Free pieces that aren't all zero, and pieces in use that nothing refers to.
    for &d in &free {
        try_with(format!("free piece {d} has a buffer"), &|t| {
            t.pieces[d].buffer = 1;
        });
        try_with(format!("free piece {d} has an offset"), &|t| {
            t.pieces[d].offset = 256;
        });
        try_with(format!("free piece {d} has a length"), &|t| {
            t.pieces[d].length = 1;
        });
        try_with(format!("free piece {d} has itself as next"), &|t| {
            t.pieces[d].next = Some(d);
        });
        try_with(format!("free piece {d} has next 0"), &|t| {
            t.pieces[d].next = Some(0);
        });
        try_with(
            format!("piece {d} in use, but nothing refers to it"),
            &|t| {
                t.pieces[d] = piece(1, 0, None);
                t.buffers[0] += 1;
            },
        );
    }

    // Rings that no slip heads: every count agrees.
    for size in (1..=free.len().min(4)).chain([free.len()]) {
        if size == 0 {
            continue;
        }
        let ring = &free[free.len() - size..];
        try_with(format!("ring {ring:?} that no slip heads"), &|t| {
            for (i, &d) in ring.iter().enumerate() {
                t.pieces[d] = piece(1, 0, Some(ring[(i + 1) % size]));
                t.buffers[0] += 1;
            }
        });
        // A ring with a way in, from a piece that a slip heads: here too every count agrees.
        let vacant = tables.slips.iter().position(|s| *s == Slip::Vacant);
        if let Some(s) = vacant {
            try_with(format!("ring {ring:?} that slip {s} heads"), &|t| {
                for (i, &d) in ring.iter().enumerate() {
                    t.pieces[d] = piece(1, 0, Some(ring[(i + 1) % size]));
                    t.buffers[0] += 1;
                }
                t.pieces[ring[0]].count += 1;
                t.slips[s] = Slip::Heads(ring[0]);
            });
            // Without the last next it is a chain like any other: still sound.
            try_with(format!("new chain {ring:?} of slip {s}"), &|t| {
                for (i, &d) in ring.iter().enumerate() {
                    t.pieces[d] = piece(1, 0, ring.get(i + 1).copied());
                    t.buffers[0] += 1;
                }
                t.slips[s] = Slip::Heads(ring[0]);
            });
        }
    }

    // Chains whose last piece leads back into them, counted.
    for s in 0..tables.slips.len() {
        let chain = tables.chain(tables.slips[s]);
        if let Some((last, _)) = chain.split_last() {
            let back = random.pick(&chain);
            try_with(format!("slip {s} leads back to {back}"), &|t| {
                t.pieces[*last].next = Some(back);
                t.pieces[back].count += 1;
            });
        }
    }

    // Buffer counts.
    for b in 0..tables.buffers.len() {
        for count in [0, 1, 256, 65_535] {
            try_with(format!("buffer {b} has count {count}"), &|t| {
                t.buffers[b] = count;
            });
        }
        let other = random.below(tables.buffers.len() as u64) as usize;
        try_with(format!("buffers {b} and {other} change counts"), &|t| {
            t.buffers.swap(b, other);
        });
    }
}

/// Other serials, each of a held slip or of a vacant one: no damage, since any serial is good.
pub fn serials_moved(random: &mut Random, pool: &[u8], storage: &[u8], visit: Visit) {
    let tables = Tables::parse(pool, storage).expect("a sound pool");
    for s in 0..tables.slips.len() {
        let any = random.below(LAST);
        for serial in [0, 1, 255, 256, LAST - 1, LAST, any] {
            let mut other = tables.clone();
            other.serials[s] = serial;
            let what = format!("slip {s} has serial {serial}");
            visit(&what, &other.bytes(), storage);
        }
    }
    let mut all = tables;
    all.serials.fill(LAST);
    visit("every slip has the last serial", &all.bytes(), storage);
}

fn piece(count: u64, buffer: usize, next: Option<usize>) -> Piece {
    Piece {
        count,
        buffer,
        offset: 0,
        length: 1,
        next,
    }
}

/// Lengths one more, one less, cut anywhere, and none; of the pool, of the storage, of both.
pub fn lengths_wrong(random: &mut Random, pool: &[u8], storage: &[u8], visit: Visit) {
    let longer = |bytes: &[u8], by: usize| [bytes, &vec![0; by]].concat();
    for (what, bad) in [
        ("one byte more", longer(pool, 1)),
        ("two bytes more", longer(pool, 2)),
        ("ten bytes more", longer(pool, 10)),
        ("one byte less", pool[..pool.len() - 1].to_vec()),
        ("two bytes less", pool[..pool.len() - 2].to_vec()),
        ("header only", pool[..11].to_vec()),
        ("ten bytes", pool[..10].to_vec()),
        ("mark only", pool[..3].to_vec()),
        ("one byte", pool[..1].to_vec()),
        ("no byte", Vec::new()),
    ] {
        visit(&format!("pool: {what}"), &bad, storage);
        visit(&format!("pool: {what}, storage: none"), &bad, &[]);
    }
    for (what, bad) in [
        ("one byte more", longer(storage, 1)),
        ("one buffer more", longer(storage, 512)),
        ("one byte less", storage[..storage.len() - 1].to_vec()),
        ("one buffer less", storage[..storage.len() - 512].to_vec()),
        ("one byte", storage[..1].to_vec()),
        ("no byte", Vec::new()),
    ] {
        visit(&format!("storage: {what}"), pool, &bad);
    }
    for _ in 0..6 {
        let keep = random.below(pool.len() as u64) as usize;
        visit(&format!("pool cut to {keep} bytes"), &pool[..keep], storage);
        let keep = random.below(storage.len() as u64) as usize;
        visit(
            &format!("storage cut to {keep} bytes"),
            pool,
            &storage[..keep],
        );
    }
}

/// Random words, bytes and stretches in the pool, and pools of random bytes altogether.
pub fn random_bytes(random: &mut Random, pool: &[u8], storage: &[u8], visit: Visit) {
    for _ in 0..12 {
        let mut damaged = pool.to_vec();
        for _ in 0..random.between(1, 3) {
            let at = random.below(pool.len() as u64) as usize;
            damaged[at] ^= 1 << random.below(8);
        }
        visit("bits turned over", &damaged, storage);
    }
    for _ in 0..12 {
        let mut damaged = pool.to_vec();
        let words = (pool.len() as u64 - 3) / 2;
        for _ in 0..random.between(1, 2) {
            let at = 3 + 2 * random.below(words) as usize;
            let word = random.pick(&[0, 1, 2, 3, 255, 256, 511, 512, 513, 32_768, 65_535]);
            set(&mut damaged, at, word);
        }
        visit("words replaced", &damaged, storage);
    }
    // The header stays, the tables are small words: some of these get far into the audit.
    for most in [1, 2, 4, 9] {
        let mut damaged = pool.to_vec();
        for at in (11..pool.len()).step_by(2) {
            let word = random.below(most + 1);
            set(&mut damaged, at, word);
        }
        visit("tables of small words", &damaged, storage);
    }
    let noise = random.bytes(pool.len());
    visit("random bytes", &noise, storage);
    let mut headed = noise;
    headed[..11].copy_from_slice(&pool[..11]);
    visit("random bytes after the header", &headed, storage);
}

/// Other counts in the header that ask the same lengths: the tables are read at other places.
pub fn counts_shifted(pool: &[u8], storage: &[u8], visit: Visit) {
    let tables = Tables::parse(pool, storage).expect("a sound pool to damage");
    let (p, s) = (tables.pieces.len() as u64, tables.slips.len() as u64);
    for (pieces, slips) in [(p.wrapping_sub(2), s + 5), (p + 2, s.wrapping_sub(5))] {
        let mut damaged = pool.to_vec();
        set(&mut damaged, 7, pieces);
        set(&mut damaged, 9, slips);
        visit("counts of the same length", &damaged, storage);
    }
}

/// The header's counts and all words of the last slip, the last piece and the last buffer: off by one, and at each of the
/// pool's borders and one past it.
pub fn borders(pool: &[u8], storage: &[u8], visit: Visit) {
    let word = |at: usize| u16::from_le_bytes([pool[at], pool[at + 1]]) as u64;
    let [b, p, s] = [5, 7, 9].map(word);
    let piece = (11 + 4 * s + 10 * (p - 1)) as usize;
    let slip = (11 + 4 * (s - 1)) as usize;
    let places = [5, 7, 9, slip, slip + 2].into_iter();
    let places = places.chain((piece..piece + 10).step_by(2));
    for at in places.chain([pool.len() - 2]) {
        let around = [word(at).wrapping_sub(1), word(at) + 1];
        let borders = [b, p, s, p + s].into_iter();
        let borders = borders.flat_map(|border| [border - 1, border, border + 1, border + 2]);
        for other in around.into_iter().chain(borders).chain([65_535]) {
            let mut damaged = pool.to_vec();
            set(&mut damaged, at, other);
            let what = format!("{} at {at} is {}", word(at), other as u16);
            visit(&what, &damaged, storage);
        }
    }
}

/// Fresh pools whose header counts are out of range although both lengths agree with them.
pub fn counts_out_of_range(visit: Visit) {
    for (b, p, s) in [
        (0, 1, 1),
        (1, 0, 1),
        (1, 1, 0),
        (0, 0, 0),
        (MOST.0 + 1, 1, 1),
        (1, MOST.1 + 1, 1),
        (1, 1, MOST.2 + 1),
        (MOST.0 + 1, MOST.1 + 1, MOST.2 + 1),
        (MOST.0, MOST.1, MOST.2 + 1),
        (MOST.0, MOST.1 + 1, MOST.2),
        (MOST.0 + 1, MOST.1, MOST.2),
        (1, 65_535, 1),
        (1, 1, 65_535),
        (65_535, 1, 1),
        (2 * MOST.0, 1, 1),
        (MOST.0, 1, 1),
        (1, MOST.1, 1),
        (1, 1, MOST.2),
        MOST,
    ] {
        let mut pool = vec![0; pool_length(b, p, s) as usize];
        pool[..3].copy_from_slice(b"SLP");
        for (at, word) in [(3, VERSION), (5, b), (7, p), (9, s)] {
            set(&mut pool, at, word);
        }
        let storage = vec![7; 512 * b as usize];
        visit(&format!("fresh pool of {b}, {p}, {s}"), &pool, &storage);
    }
}

/// Every kind of damage that starts from a sound pool, and other serials, which are none.
pub fn every_damage(random: &mut Random, pool: &[u8], storage: &[u8], visit: Visit) {
    fields_off_by_one(pool, storage, visit);
    tables_damaged(random, pool, storage, visit);
    serials_moved(random, pool, storage, visit);
    lengths_wrong(random, pool, storage, visit);
    random_bytes(random, pool, storage, visit);
    counts_shifted(pool, storage, visit);
}
