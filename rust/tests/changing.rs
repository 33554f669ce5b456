//! All calls of the library beside the model: the paper's cases, long random lists compared after
//! every call with the recount, and damaged pools.
#![cfg(fulcrumnest_lib)]

mod common;

use std::ptr::{null, null_mut};
use std::time::Instant;

use common::compare;
use common::damage;
use common::library;
use common::model::{Call, Name, Tables, TORN, TRUE};
use common::random::{self, Mood, Random, SHAPES};
use common::recount::recount;
use common::sequence::{largest, run_lists, run_on, setting, List, Tally, KINDS};
use fulcrumnest::ffi;

paper_cases!(library::step);

/// Random lists over all shapes: code, number and every byte after every call, and the recount.
#[test]
fn random_lists() {
    let calls = setting("FULCRUMNEST_CALLS", 1_000_000);
    let seed = setting("FULCRUMNEST_SEED", 1_000_000);
    let begun = Instant::now();
    let tally = run_lists(Some(library::step), seed, calls, SHAPES);
    tally.print(begun);
    assert_eq!(tally.calls, calls);
    if calls >= 100_000 {
        tally.all_met();
    }
}

/// Random lists on the largest pools, sparse, full, scattered and shared, each with another mood: compared as the others are.
#[test]
fn largest_pools() {
    let calls = 1_000 * setting("FULCRUMNEST_TIMES", 1).max(1);
    let begun = Instant::now();
    let mut tally = Tally::default();
    for (what, mut list) in largest() {
        for _ in 0..3 {
            list.mood = Mood::new(&mut list.random, list.shape);
            run_on(Some(library::step), what, &mut list, calls, &mut tally);
        }
    }
    tally.print(begun);
    let full = &tally.codes[8..];
    assert!(full.iter().all(|times| *times > 0), "{:?}", tally.codes);
    let met = tally.kinds.iter().filter(|times| **times > 0).count();
    assert!(met > KINDS.len() / 2, "{:?}", tally.kinds);
}

/// A slip by the serial that stands in the pool, if it can be read, and now and then by another.
fn any_name(random: &mut Random, pool: &[u8], storage: &[u8], slips: u16) -> Name {
    let slip = random.below(slips as u64) as u16;
    match Tables::parse(pool, storage) {
        Some(tables) if (slip as usize) < tables.slips.len() && !random.once_in(8) => {
            tables.name(slip)
        }
        Some(tables) => Name::new(slip, random::other_serial(random, &tables, slip)),
        None => Name::from(slip),
    }
}

/// On a damaged pool every changing call does as the model does: code 2 and nothing changed where
/// the pool is torn, and the call itself where it is still sound.
#[test]
fn damaged_pools() {
    let mut calls = 0;
    let mut torn = 0;
    for seed in 0..40 * setting("FULCRUMNEST_TIMES", 1).max(1) {
        let mut list = List::start(seed, (seed < 11).then(|| SHAPES[seed as usize]));
        if list.shape.1 > 40 {
            continue;
        }
        list.run(60);
        let mut random = Random::new(seed);
        let mut arguments = Random::new(!seed);
        let mut visit = |what: &str, pool: &[u8], storage: &[u8]| {
            let slip = any_name(&mut arguments, pool, storage, list.shape.2);
            let other = any_name(&mut arguments, pool, storage, list.shape.2);
            let n = arguments.below(20) as u32;
            for call in [
                Call::Put { data: vec![1; 600] },
                Call::Free { slip },
                Call::Dup { slip },
                Call::Cut {
                    slip,
                    offset: 1,
                    length: n,
                },
                Call::Append { a: slip, b: other },
                Call::Drop { slip, n },
                Call::Keep { slip, n },
                Call::Pullup { slip, n },
                Call::Pack { slip },
            ] {
                let wanted = TRUE.step(pool, storage, &call);
                let got = library::step(pool, storage, &call);
                if let Some(text) = compare::outcomes(&wanted, &got) {
                    panic!(
                        "seed {seed}, {what}: {}\n{text}\n{}",
                        call.brief(),
                        compare::dump("pool", pool)
                    );
                }
                calls += 1;
                torn += u64::from(got.code == TORN);
            }
        };
        damage::every_damage(&mut random, &list.pool, &list.storage, &mut visit);
    }
    println!("{calls} calls, {torn} of them on torn pools");
    assert!(torn > 10_000 && calls > torn + 1_000);
}

/// The library alone goes through a list, its own pool carried on: the recount holds at the end.
#[test]
fn library_alone() {
    let mut list = List::start(9, Some((12, 40, 10)));
    for made in 0..5_000 {
        list.wear(made);
        let call = list.call();
        let outcome = library::step(&list.pool, &list.storage, &call);
        assert!(outcome.code != TORN, "{}", call.brief());
        list.take(outcome);
        recount(&list.pool).expect("demand 3");
    }
}

/// Empty slices with a null pointer: no data to put, no pool, no storage.
#[test]
fn null_pointers() {
    let list = List::start(1, Some((2, 3, 2)));
    let (mut pool, mut storage) = (list.pool.clone(), list.storage.clone());
    let size = pool.len();
    let room = storage.len();
    let pair = |answer: ffi::Answer| (answer.code, answer.number);
    // The pointers come from live slices or are null with length 0.
    unsafe {
        let torn = (2, 0);
        let none = null_mut();
        assert_eq!(pair(ffi::slp_put(none, 0, none, 0, null(), 0)), torn);
        assert_eq!(pair(ffi::slp_free(none, 0, none, 0, 0, 0)), torn);
        assert_eq!(pair(ffi::slp_dup(none, 0, null(), 0, 0, 0)), torn);
        assert_eq!(pair(ffi::slp_cut(none, 0, null(), 0, 0, 0, 0, 0)), torn);
        assert_eq!(pair(ffi::slp_append(none, 0, none, 0, 0, 0, 1, 0)), torn);
        assert_eq!(pair(ffi::slp_drop(none, 0, none, 0, 0, 0, 0)), torn);
        assert_eq!(pair(ffi::slp_keep(none, 0, none, 0, 0, 0, 0)), torn);
        assert_eq!(pair(ffi::slp_pullup(none, 0, none, 0, 0, 0, 0)), torn);
        assert_eq!(pair(ffi::slp_pack(none, 0, none, 0, 0, 0)), torn);
        assert_eq!(
            pair(ffi::slp_put(pool.as_mut_ptr(), size, none, 0, null(), 0)),
            torn
        );
        assert_eq!(pool, list.pool);
        let answer = ffi::slp_put(
            pool.as_mut_ptr(),
            size,
            storage.as_mut_ptr(),
            room,
            null(),
            0,
        );
        assert_eq!(pair(answer), (0, 0));
    }
    let wanted = TRUE.step(&list.pool, &list.storage, &Call::Put { data: Vec::new() });
    assert_eq!((pool, storage), (wanted.pool, wanted.storage));
}
