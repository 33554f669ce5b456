//! How often the audit follows next (document 02, R-2): never more than P times, of a sound pool exactly P times. The count
//! comes from the test entry `slp_test_follows` (make follows writes its archive), and is held to one made another way.
#![cfg(all(fulcrumnest_lib, fulcrumnest_follows))]

mod common;

use std::fs;

use common::damage;
use common::model::{Call, Piece, Slip, Tables, MOST, TRUE};
use common::nexts::{self, figure, worst_cases, Nexts};
use common::random::Random;
use common::sequence::{pools, setting};
use fulcrumnest::calls;

/// The audit's code, and how often it followed next.
#[repr(C)]
struct Counted {
    code: u16,
    follows: u32,
}

extern "C" {
    fn slp_test_follows(
        pool: *const u8,
        pool_length: usize,
        storage: *const u8,
        storage_length: usize,
    ) -> Counted;
}

/// Code and follows of one audit; the code must be that of `slp_audit`.
fn audit(pool: &[u8], storage: &[u8]) -> (u16, usize) {
    let (p, s) = (pool.as_ptr(), storage.as_ptr());
    // The entry asks two live slices and writes nothing.
    let counted = unsafe { slp_test_follows(p, pool.len(), s, storage.len()) };
    assert_eq!(counted.code, calls::audit(pool, storage).code);
    (counted.code, counted.follows as usize)
}

/// The follows of a pool given by its nexts, once code and count are what they should be.
fn follows(what: &str, nexts: &Nexts) -> usize {
    let (pool, storage) = nexts.bytes();
    let (code, follows) = audit(&pool, &storage);
    let walked = nexts.walked();
    let p = nexts.next.len();
    assert_eq!(code, if walked.ends { 0 } else { 2 }, "{what}: {nexts:?}");
    assert_eq!(follows, walked.met, "{what}: {nexts:?}");
    assert!(!walked.ends || follows == p, "{what}: {nexts:?}");
    assert!(follows <= p, "{what}: {nexts:?}");
    follows
}

/// Worst cases of many sizes, also around those at which the audit takes more counters; those of the figure are printed beside the bound.
#[test]
fn worst_cases_of_every_size() {
    let most = MOST.1 as usize;
    for p in (1..=264)
        .chain((264..most).step_by(251))
        .chain([most - 1, most])
    {
        for (what, nexts) in worst_cases(p) {
            follows(what, &nexts);
        }
    }
    println!("| pool | P | code | follows | bound 2·P | remembering nothing |");
    println!("|---|---|---|---|---|---|");
    for (what, nexts) in figure() {
        let p = nexts.next.len();
        let walked = nexts.walked();
        let code = if walked.ends { 0 } else { 2 };
        let (follows, bound) = (follows(what, &nexts), 2 * p);
        let forgetful = walked.forgetful;
        println!("| {what} | {p} | {code} | {follows} | {bound} | {forgetful} |");
    }
}

/// All that the next of each of p pieces can be, with every count right.
fn every_table(p: usize, visit: &mut dyn FnMut(&Nexts)) {
    let mut links = vec![0; p];
    loop {
        let next = links.iter().map(|link: &usize| link.checked_sub(1));
        visit(&Nexts::headed(next.collect()));
        let Some(low) = links.iter().position(|link| *link < p) else {
            return;
        };
        links[..low].fill(0);
        links[low] += 1;
    }
}

/// Every table of nexts of at most 6 pieces: the same yes and the same no as the model.
#[test]
fn every_table_of_few_pieces() {
    let mut codes = [0; 3];
    for p in 1..=6 {
        every_table(p, &mut |nexts| {
            follows("every table", nexts);
            let (pool, storage) = nexts.bytes();
            let code = TRUE.step(&pool, &storage, &Call::Audit).code;
            assert_eq!(code == 0, nexts.walked().ends, "{nexts:?}");
            codes[code as usize] += 1;
        });
    }
    println!(
        "{} tables without a ring and {} with one",
        codes[0], codes[2]
    );
    // (p + 1)^p tables of p pieces, of which (p + 1)^(p - 1) have no ring: Cayley's number of rooted forests.
    assert_eq!(codes, [18_248, 0, 107_877]);
}

/// Random nexts, with and without a ring.
#[test]
fn random_tables() {
    let times = 4_000 * setting("FULCRUMNEST_TIMES", 1).max(1);
    let mut random = Random::new(setting("FULCRUMNEST_SEED", 20_000));
    let mut most = [0.0f64; 2];
    for i in 0..times {
        let large = random.once_in(100);
        let p = random.between(1, if large { MOST.1 } else { 264 }) as usize;
        let mut below = |n: usize| random.below(n as u64) as usize;
        let nexts = nexts::random(p, i % 2 == 1, &mut below);
        let part = follows("random", &nexts) as f64 / p as f64;
        let torn = usize::from(!nexts.walked().ends);
        assert_eq!(torn as u64, i % 2);
        most[torn] = most[torn].max(part);
    }
    println!(
        "{times} tables: at most {:.2}·P follows of sound ones, {:.2}·P of torn ones",
        most[0], most[1]
    );
    assert_eq!(most, [1.0, 1.0]);
}

/// The audit loads next at one place, and counts in the line below it, so nothing is followed uncounted.
#[test]
fn every_follow_is_counted() {
    let path = concat!(env!("CARGO_MANIFEST_DIR"), "/../crates/audit/src/lib.rt");
    let source = fs::read_to_string(path).expect("the audit's source");
    let lines: Vec<&str> = source.lines().map(str::trim).collect();
    let load = |line: &str| line.contains("piece_next") || line.contains("entry_of");
    let places: Vec<usize> = (0..lines.len()).filter(|i| load(lines[*i])).collect();
    assert_eq!(places.len(), 1, "{places:?}");
    assert_eq!(lines[places[0] + 1], "n += 1;");
}

/// Pools that random lists of calls leave: exactly P follows.
#[test]
fn pools_that_calls_leave() {
    let mut audited = 0;
    for (seed, list) in pools(300, 60) {
        let tables = Tables::parse(&list.pool, &list.storage).expect("sound");
        let answer = audit(&list.pool, &list.storage);
        assert_eq!(answer, (0, tables.pieces.len()), "seed {seed}");
        audited += 1;
    }
    assert!(audited >= 300);
}

/// Whether every entry is in range and every count right, so that only following next can tell sound from torn.
fn counts_right(tables: &Tables) -> bool {
    let free = Tables::fresh(1, 1, 1).pieces[0];
    let (mut pieces, mut buffers) = (tables.pieces.clone(), tables.buffers.clone());
    let heads = tables.slips.iter().filter_map(|slip| match slip {
        Slip::Heads(d) => Some(*d),
        _ => None,
    });
    let used = tables.pieces.iter().filter(|piece| piece.count > 0);
    for d in heads.chain(used.clone().filter_map(|piece| piece.next)) {
        match pieces.get_mut(d) {
            Some(piece) if piece.count > 0 => piece.count -= 1,
            _ => return false,
        }
    }
    for piece in used {
        match buffers.get_mut(piece.buffer) {
            Some(count) if *count > 0 => *count -= 1,
            _ => return false,
        }
        if piece.length == 0 || piece.offset + piece.length > 512 {
            return false;
        }
    }
    let unused = |piece: &Piece| piece.count > 0 || *piece == free;
    let all_met = pieces.iter().all(|piece| piece.count == 0) && buffers.iter().all(|n| *n == 0);
    all_met && tables.pieces.iter().all(unused)
}

/// The follows that an audit of these bytes should have: none where header, entries or counts are wrong.
fn wanted(pool: &[u8], storage: &[u8]) -> usize {
    match Tables::parse(pool, storage) {
        Some(tables) if counts_right(&tables) => {
            let next = tables.pieces.iter().map(|piece| piece.next);
            Nexts::headed(next.collect()).walked().met
        }
        _ => 0,
    }
}

/// Pools damaged in every way: the count is exact, also where the pool is torn before any next is followed.
#[test]
fn damaged_pools() {
    let (mut before, mut walked, mut sound) = (0, 0, 0);
    let mut visit = |what: &str, pool: &[u8], storage: &[u8]| {
        let (code, follows) = audit(pool, storage);
        assert_eq!(follows, wanted(pool, storage), "{what}");
        match (code, follows) {
            (0, _) => sound += 1,
            (_, 0) => before += 1,
            _ => walked += 1,
        }
    };
    for (_, mut list) in pools(60, 40) {
        damage::fields_off_by_one(&list.pool, &list.storage, &mut visit);
        damage::tables_damaged(&mut list.random, &list.pool, &list.storage, &mut visit);
        for length in 0..list.pool.len() {
            visit("cut short", &list.pool[..length], &list.storage);
        }
    }
    println!("torn before the walk {before}, by the walk {walked}, sound {sound}");
    assert!(before > 10_000 && walked > 500 && sound > 1_000);
}
