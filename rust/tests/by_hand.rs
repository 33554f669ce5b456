//! The yardstick of the figures beside the model: it does the whole of every operation, refusals too.

#[path = "../examples/by_hand/mod.rs"]
mod by_hand;
mod common;

use std::time::Instant;

use common::clean;
use common::model::{Call, Name, Outcome, View, NO_VIEW, TRUE};
use common::random::{Mood, SHAPES};
use common::sequence::{largest, run_lists, run_on, setting, Tally, KINDS};
use common::wire;
use fulcrumnest::{Answer, Shown, Slip, Stretch};

/// The records that numbers make, two by two.
fn records(numbers: &[u32]) -> Vec<Stretch> {
    let record = |two: &[u32]| Stretch {
        position: two[0],
        length: two[1],
    };
    numbers.chunks(2).map(record).collect()
}

/// All that a call is lent, copied, and the view that show answers.
struct Lent {
    pool: Vec<u8>,
    storage: Vec<u8>,
    lent: Vec<u8>,
    list: Vec<u32>,
    view: View,
}

/// One call by hand; open is the model's. The pool is sound: its list starts from a done open.
fn step(pool: &[u8], storage: &[u8], call: &Call) -> Outcome {
    let mut all = Lent {
        pool: pool.to_vec(),
        storage: storage.to_vec(),
        lent: call.lent().to_vec(),
        list: call.list(),
        view: NO_VIEW,
    };
    let (code, number) = match call {
        Call::Open { .. } => return TRUE.step(pool, storage, call),
        Call::Gather { .. } => {
            let gathered = by_hand::gather(&all.storage, &all.list, &mut all.lent);
            (gathered.code, gathered.number)
        }
        _ => {
            // The pool is sound, and storage is of its length.
            let answer = unsafe { answer(&mut all, call) };
            (answer.code, answer.number as u64)
        }
    };
    Outcome {
        code,
        number,
        view: all.view,
        pool: all.pool,
        storage: all.storage,
        lent: all.lent,
        list: all.list,
    }
}

/// The slip that the model names.
fn slip_of(name: Name) -> Slip {
    Slip::new(name.number, name.serial)
}

/// A call on a sound pool.
unsafe fn answer(all: &mut Lent, call: &Call) -> Answer {
    let (p, s, l) = (&mut all.pool[..], &mut all.storage[..], &mut all.lent[..]);
    match call {
        Call::Open { .. } | Call::Gather { .. } => unreachable!("made above"),
        Call::Audit => by_hand::audit(p, s),
        Call::Put { data } => by_hand::put(p, s, data),
        Call::Free { slip } => by_hand::free(p, s, slip_of(*slip)),
        Call::Dup { slip } => by_hand::dup(p, s, slip_of(*slip)),
        Call::Cut {
            slip,
            offset,
            length,
        } => by_hand::cut(p, s, slip_of(*slip), *offset, *length),
        Call::Append { a, b } => by_hand::append(p, s, slip_of(*a), slip_of(*b)),
        Call::Drop { slip, n } => by_hand::drop(p, s, slip_of(*slip), *n),
        Call::Keep { slip, n } => by_hand::keep(p, s, slip_of(*slip), *n),
        Call::Pullup { slip, n } => by_hand::pullup(p, s, slip_of(*slip), *n),
        Call::Pack { slip } => by_hand::pack(p, s, slip_of(*slip)),
        Call::Length { slip } => by_hand::length(p, s, slip_of(*slip)),
        Call::Read {
            slip,
            offset,
            length,
            ..
        } => by_hand::read(p, s, slip_of(*slip), *offset, *length, l),
        Call::Show { slip, n, .. } => {
            shown(by_hand::show(p, s, slip_of(*slip), *n, l), &mut all.view)
        }
        Call::List { slip, .. } => by_hand::list(p, s, slip_of(*slip), &mut all.list),
        Call::Stretches { slip, .. } => {
            let mut written = records(&all.list);
            let answer = by_hand::stretches(p, s, slip_of(*slip), &mut written);
            let numbers = written.iter().flat_map(|r| [r.position, r.length]);
            all.list = numbers.collect();
            answer
        }
    }
}

/// The answer of a show, its view apart.
fn shown(shown: Shown, view: &mut View) -> Answer {
    *view = View {
        in_scratch: shown.in_scratch == 1,
        start: shown.start as u64,
    };
    Answer {
        code: shown.code,
        number: shown.number,
    }
}

paper_cases! { step; serials }
paper_cases! { step; clean }
paper_cases! { step; morning; ten_rows, full_table_done, full_table_refused, }
paper_cases! { step; scenarios;
    reading_19_filled_whole, reading_31_front_given_back, reading_32_room_in_front, reading_33_copied_first, full_table_of_the_largest,
}

/// Random lists over all shapes: code, number and every byte after every call.
#[test]
fn random_lists() {
    let calls = setting("FULCRUMNEST_MODEL_CALLS", 300_000);
    let seed = setting("FULCRUMNEST_SEED", 2_000_000);
    let begun = Instant::now();
    let tally = run_lists(Some(step), seed, calls, SHAPES);
    tally.print(begun);
    assert_eq!(tally.calls, calls);
    if calls >= 100_000 {
        tally.all_met();
    }
}

/// The same on the largest pools.
#[test]
fn largest_pools() {
    let mut tally = Tally::default();
    for (what, mut list) in largest() {
        for _ in 0..3 {
            list.mood = Mood::new(&mut list.random, list.shape);
            run_on(Some(step), what, &mut list, 500, &mut tally);
        }
    }
    let met = tally.kinds.iter().filter(|times| **times > 0).count();
    assert!(met > KINDS.len() / 2, "{:?}", tally.kinds);
}

/// Gathers from any storage: code, number and every byte.
#[test]
fn random_gathers() {
    let calls = setting("FULCRUMNEST_MODEL_CALLS", 300_000) / 4;
    let seed = setting("FULCRUMNEST_SEED", 2_000_000);
    wire::all_met(wire::run_gathers(step, seed, calls), calls);
}

/// Over zeroed storage every free buffer is zero after every call.
#[test]
fn zeroed_lists() {
    let calls = setting("FULCRUMNEST_MODEL_CALLS", 300_000) / 6;
    let seed = setting("FULCRUMNEST_SEED", 5_000_000);
    clean::zeroed_lists(step, seed, calls);
}

/// Over old storage those given back are zero, and those neither taken nor given back keep every byte.
#[test]
fn old_lists() {
    let calls = setting("FULCRUMNEST_MODEL_CALLS", 300_000) / 6;
    let seed = setting("FULCRUMNEST_SEED", 5_000_000);
    clean::old_lists(step, seed, calls);
}
