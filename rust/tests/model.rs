//! The model against the paper: its rows, edges and readings, the recount of demand 3, the law of
//! the wire list, and cleaned buffers.

mod common;

use std::time::Instant;

use common::clean;
use common::desk::{by_model, cut, dup, Desk};
use common::model::{Call, Name, Tables, LAST, TRUE};
use common::morning::{Full, FULL};
use common::random::{self, SHAPES};
use common::recount::recount;
use common::sequence::{demand_three, pools, run_lists, setting, List};
use common::wire;

paper_cases!(by_model);

/// Demand 3 after every call of random lists over all shapes, with every code and every kind of full table met on the way.
#[test]
fn recount_after_every_call() {
    let calls = setting("FULCRUMNEST_MODEL_CALLS", 300_000);
    let seed = setting("FULCRUMNEST_SEED", 1);
    let begun = Instant::now();
    let tally = run_lists(None, seed, calls, SHAPES);
    tally.print(begun);
    assert_eq!(tally.calls, calls);
    tally.all_met();
}

/// The empty list: a pool just opened passes the recount, with all its room.
#[test]
fn recount_of_the_empty_list() {
    for &shape in SHAPES {
        let list = List::start(7, Some(shape));
        let found = recount(&list.pool).expect("a fresh pool");
        let (b, p, s) = shape;
        assert_eq!(found.room(), (s as u64, p as u64, b as u64));
    }
}

/// The recount itself sees a wrong count, a wrong buffer and a chain that meets itself.
#[test]
fn recount_sees_wrong_counts() {
    let mut seen = 0;
    for seed in 0..40 {
        let mut list = List::start(seed, Some((6, 10, 5)));
        list.run(60);
        recount(&list.pool).expect("the model's own pool");
        let tables = Tables::parse(&list.pool, &list.storage).expect("sound");
        let mut wrong = Vec::new();
        for d in 0..tables.pieces.len() {
            let mut t = tables.clone();
            t.pieces[d].count += 1;
            wrong.push(t);
            if tables.pieces[d].count > 0 {
                let mut t = tables.clone();
                t.pieces[d].count -= 1;
                wrong.push(t);
                let mut t = tables.clone();
                t.pieces[d].buffer = (t.pieces[d].buffer + 1) % t.buffers.len();
                wrong.push(t);
                let mut t = tables.clone();
                t.pieces[d].next = Some(d);
                wrong.push(t);
            }
        }
        for b in 0..tables.buffers.len() {
            let mut t = tables.clone();
            t.buffers[b] += 1;
            wrong.push(t);
        }
        for t in wrong {
            assert!(recount(&t.bytes()).is_err(), "seed {seed}: {t:?}");
            seen += 1;
        }
    }
    assert!(seen > 1_000, "only {seen} pools were tried");
}

/// A wrong answer is denied where there is room and where there is none.
#[test]
fn full_exactly_when() {
    let list = List::start(3, Some((1, 1, 2)));
    let before = recount(&list.pool).expect("a fresh pool");
    let put = |n: usize| Call::Put { data: vec![9; n] };
    let mut done = TRUE.step(&list.pool, &list.storage, &put(1));
    assert!(demand_three(&before, &put(1), &done).is_ok());
    for code in 8..=10 {
        done.code = code;
        assert!(demand_three(&before, &put(1), &done).is_err());
    }
    let mut refused = TRUE.step(&list.pool, &list.storage, &put(513));
    assert_eq!(refused.code, 9);
    assert!(demand_three(&before, &put(513), &refused).is_ok());
    for code in [0, 2, 8, 10] {
        refused.code = code;
        assert!(demand_three(&before, &put(513), &refused).is_err());
    }
}

/// The recount leaves spent slips out of those vacant: only they are no room, and any answer but 8 is denied.
#[test]
fn full_where_all_are_spent() {
    let mut list = List::start(3, Some((2, 4, 3)));
    let mut tables = Tables::parse(&list.pool, &list.storage).expect("sound");
    for (serials, slips) in [
        ([0, 0, 0], 3),
        ([LAST, 0, LAST - 1], 2),
        ([LAST, LAST, LAST - 1], 1),
        ([LAST; 3], 0),
    ] {
        tables.serials = serials.to_vec();
        list.pool = tables.bytes();
        let before = recount(&list.pool).expect("a sound pool");
        assert_eq!(before.room(), (slips, 4, 2));
        let call = Call::Put { data: vec![9; 600] };
        let mut after = TRUE.step(&list.pool, &list.storage, &call);
        let code = if slips == 0 { 8 } else { 0 };
        assert_eq!(after.code, code);
        assert!(demand_three(&before, &call, &after).is_ok());
        for wrong in [0, 8, 9, 10].into_iter().filter(|wrong| *wrong != code) {
            after.code = wrong;
            assert!(demand_three(&before, &call, &after).is_err());
        }
    }
}

/// The recount finds nothing wanted by a wrong serial: full is never said of it.
#[test]
fn full_by_the_right_name_only() {
    let mut desk = Desk::open(by_model, 1, 1, 1);
    desk.put(10, 0);
    desk.set_serials(&[7]);
    let before = recount(&desk.pool).expect("a sound pool");
    for (serial, full) in [
        (7, Some(8)),
        (6, None),
        (8, None),
        (0, None),
        (65_535, None),
    ] {
        for call in [dup((0, serial)), cut((0, serial), 0, 5)] {
            assert_eq!(before.full(&call), full, "{}", call.brief());
            let after = TRUE.step(&desk.pool, &desk.storage, &call);
            assert_eq!(after.code, full.unwrap_or(3), "{}", call.brief());
        }
    }
}

/// Full is judged by what drop and pullup give back: of the full tables each other answer is denied.
#[test]
fn full_by_what_is_given_back() {
    for Full { before, code, row } in FULL {
        let mut desk = Desk::open(by_model, 4, 6, 4);
        for (call, number) in *before {
            desk.done(call(), *number);
        }
        let found = recount(&desk.pool).expect("the model's own pool");
        let call = (row.call)();
        let mut after = desk.call(call.clone());
        assert_eq!(after.code, *code);
        assert!(demand_three(&found, &call, &after).is_ok());
        for wrong in [0, 9, 10].into_iter().filter(|wrong| wrong != code) {
            after.code = wrong;
            assert!(demand_three(&found, &call, &after).is_err());
        }
    }
}

/// List and stretches never say full and change nothing, in full pools too.
#[test]
fn lists_only_look() {
    let mut codes = [0; 12];
    for seed in 0..200 {
        let mut list = List::start(seed, None);
        list.run(80);
        let before = recount(&list.pool).expect("the model's own pool");
        let tables = Tables::parse(&list.pool, &list.storage).expect("sound");
        for slip in 0..=tables.slips.len() as u16 {
            let slip = match list.random.once_in(4) || slip as usize == tables.slips.len() {
                true => Name::new(slip, random::other_serial(&mut list.random, &tables, slip)),
                false => tables.name(slip),
            };
            for call in [
                random::list(&mut list.random, &tables, slip),
                random::stretches(&mut list.random, &tables, slip),
            ] {
                assert_eq!(before.full(&call), None);
                let after = TRUE.step(&list.pool, &list.storage, &call);
                demand_three(&before, &call, &after).expect("demand 3");
                assert_eq!(after.pool, list.pool);
                assert_eq!(after.storage, list.storage);
                codes[after.code as usize] += 1;
            }
        }
    }
    let met: Vec<usize> = (0..12).filter(|code| codes[*code] > 0).collect();
    assert_eq!(met, [0, 3, 7]);
}

/// The law of the wire list on the pools that random lists leave.
#[test]
fn law_of_the_wire_list() {
    let mut times = [0; 2];
    for (_, mut list) in pools(100, 40) {
        let more = wire::law(by_model, &mut list);
        times = [times[0] + more[0], times[1] + more[1]];
    }
    assert!(times[0] > 1_000 && times[1] > 1_000, "{times:?}");
}

/// The random gathers, on which the library is tried, come to every code of gather.
#[test]
fn random_gathers() {
    let calls = setting("FULCRUMNEST_MODEL_CALLS", 300_000) / 4;
    let seed = setting("FULCRUMNEST_SEED", 1);
    wire::all_met(wire::run_gathers(by_model, seed, calls), calls);
}

/// Over zeroed storage every free buffer is zero after every call.
#[test]
fn zeroed_lists() {
    let calls = setting("FULCRUMNEST_MODEL_CALLS", 300_000) / 3;
    let seed = setting("FULCRUMNEST_SEED", 3_000_000);
    clean::zeroed_lists(by_model, seed, calls);
}

/// Over old storage those given back are zero, and those neither taken nor given back keep every byte.
#[test]
fn old_lists() {
    let calls = setting("FULCRUMNEST_MODEL_CALLS", 300_000) / 3;
    let seed = setting("FULCRUMNEST_SEED", 3_000_000);
    clean::old_lists(by_model, seed, calls);
}
