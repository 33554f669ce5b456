//! Serials: what a wrong one is refused by, how they move, and when a slip is spent; for any engine.

use super::desk::{
    append, cut, data, drop, dup, free, keep, length, list, pack, pullup, put, read, show,
    stretches, Desk, Engine,
};
use super::model::{
    Call, Name, BUFFERS, COUNTS, DONE, LONG, NARROW, PIECES, RANGE, SAME, SLIP, SLIPS,
};
use super::morning::{self, MORNING, Z};

/// The last serial.
const LAST: u16 = 65_535;

/// Slips 0 and 1 have 600 bytes, slip 2 is empty and slip 3 vacant, each at the serial given.
fn aged(engine: Engine, serials: [u16; 4]) -> Desk {
    let mut desk = Desk::open(engine, 6, 8, 4);
    desk.put(600, 0);
    desk.dup(0, 1);
    desk.put(0, 2);
    desk.set_serials(&serials);
    desk
}

/// Every call that names a slip, here as its one slip and as each of two; n is a byte count that the chain has.
fn every_call(slip: Name, other: Name, n: u32) -> [Call; 14] {
    [
        free(slip),
        dup(slip),
        cut(slip, 0, n),
        append(slip, other),
        append(other, slip),
        drop(slip, n),
        keep(slip, n),
        pullup(slip, n),
        pack(slip),
        length(slip),
        read(slip, 0, n, 600),
        show(slip, n, 600),
        list(slip, 4),
        stretches(slip, 2),
    ]
}

/// Other serials than the right one: around it, the first, the last, those of other slips, and with one bit turned over.
fn wrong_serials(right: u16, others: &[u16]) -> Vec<u16> {
    let mut wrong = vec![right.wrapping_sub(1), right.wrapping_add(1), 0, 1, LAST];
    wrong.extend(others);
    wrong.extend((0..16).map(|bit| right ^ (1 << bit)));
    wrong.retain(|serial| *serial != right);
    wrong
}

/// The code of a call that is not gone on from.
fn code(desk: &Desk, call: &Call) -> u16 {
    (desk.engine)(&desk.pool, &desk.storage, call).code
}

/// A slip freed and given again has another name: the old one opens nothing.
pub fn yesterdays_slip(engine: Engine) {
    let mut desk = Desk::open(engine, 4, 8, 4);
    desk.put(600, 0);
    desk.put(10, 1);
    desk.free(0);
    desk.put(20, (0, 1));
    let (yesterday, today) = (Name::new(0, 0), Name::new(0, 1));
    for call in every_call(yesterday, Name::new(1, 0), 5) {
        desk.refused(call, SLIP);
    }
    for call in every_call(today, Name::new(1, 0), 5) {
        assert_eq!(code(&desk, &call), DONE, "{}", call.brief());
    }
    desk.reads(today, &data(20));
    desk.tables(
        &[2, 4, 0, 0],
        &[1, 0, 0, 0],
        &[[1, 0, 0, 20, 0], Z, [1, 2, 0, 10, 0], Z, Z, Z, Z, Z],
        &[1, 0, 1, 0],
    );
}

/// After each row of the morning, of all names answered so far those of the row's chains are held and the others are refused.
pub fn names_of_the_morning(engine: Engine) {
    let mut desk = morning::after(engine, 0);
    let names: Vec<Name> = (0..4)
        .flat_map(|n| (0..3).map(move |k| Name::new(n, k)))
        .collect();
    for row in MORNING {
        desk.done((row.call)(), row.number);
        for name in &names {
            match row.chains.iter().find(|chain| chain.slip == *name) {
                Some(chain) => desk.length(*name, chain.length),
                None => desk.refused(length(*name), SLIP),
            }
        }
    }
    // What is given next has the serials that the rows have left.
    for slip in [(0, 1), (1, 1), (2, 1), (3, 0)] {
        desk.put(1, slip);
    }
}

/// Soundness asks nothing of a serial, of a held slip or of a vacant one.
pub fn reading_21_any_serial(engine: Engine) {
    for serial in [0, 1, 255, 256, 32_768, LAST - 1, LAST] {
        for (slip, n) in [(0, 600), (1, 600), (2, 0)] {
            let mut serials = [3, 2, 1, 0];
            serials[slip as usize] = serial;
            let mut desk = aged(engine, serials);
            desk.done_unchanged(Call::Audit, 0);
            desk.length((slip, serial), n);
        }
        let mut desk = aged(engine, [serial; 4]);
        desk.done_unchanged(Call::Audit, 0);
        desk.refused(length((3, serial)), SLIP);
        desk.reads((1, serial), &data(600));
    }
}

/// Every call that names a slip is refused by each wrong serial, and done by the right one if the slip is held.
pub fn reading_22_wrong_serials(engine: Engine) {
    for serials in [
        [0, 0, 0, 0],
        [5, 7, 300, 9],
        [1, 256, 65_280, 2],
        [LAST - 1, LAST, LAST - 2, LAST - 1],
    ] {
        let mut desk = aged(engine, serials);
        let name = |slip: u16| Name::new(slip, serials[slip as usize]);
        for slip in 0..4 {
            let n = if slip < 2 { 20 } else { 0 };
            let other = name(if slip == 2 { 0 } else { 2 });
            for wrong in wrong_serials(name(slip).serial, &serials) {
                for call in every_call(Name::new(slip, wrong), other, n) {
                    desk.refused(call, SLIP);
                }
            }
            let wanted = if slip == 3 { SLIP } else { DONE };
            for call in every_call(name(slip), other, n) {
                assert_eq!(code(&desk, &call), wanted, "{}", call.brief());
            }
        }
        // No serial makes a slip of S or more.
        for number in [4, 5, 10, 255, 256, LAST] {
            for serial in serials.into_iter().chain([0, 1, 2, 512, LAST]) {
                for call in every_call(Name::new(number, serial), name(2), 0) {
                    desk.refused(call, SLIP);
                }
            }
        }
    }
}

/// Append judges both slips, serials too, before one number twice.
pub fn reading_22_append_twice(engine: Engine) {
    let mut desk = aged(engine, [5, 7, 300, 9]);
    for (slip, serial) in [(0, 5), (1, 7), (2, 300)] {
        let right = (slip, serial);
        desk.refused(append(right, right), SAME);
        for wrong in wrong_serials(serial, &[5, 7, 300, 9]) {
            let wrong = (slip, wrong);
            desk.refused(append(right, wrong), SLIP);
            desk.refused(append(wrong, right), SLIP);
            desk.refused(append(wrong, wrong), SLIP);
        }
    }
    // Vacant, and S or more: never 4.
    for slip in [(3, 9), (3, 8), (4, 0), (LAST, LAST)] {
        desk.refused(append(slip, slip), SLIP);
        desk.refused(append(slip, (slip.0, 10)), SLIP);
        desk.refused(append((0, 5), slip), SLIP);
        desk.refused(append(slip, (0, 5)), SLIP);
    }
    // Two slips of one serial are two slips.
    let mut desk = aged(engine, [6; 4]);
    desk.append((0, 6), (2, 6));
    desk.serials(&[6, 6, 7, 6]);
}

/// A wrong serial is judged before all that comes after code 3, where nothing else is right either.
pub fn reading_22_order_of_codes(engine: Engine) {
    // No slip, piece or buffer is free, and slip 0 has a chain that it shares.
    let mut desk = Desk::open(engine, 2, 3, 2);
    desk.put(600, 0);
    desk.dup(0, 1);
    desk.set_serials(&[8, 9]);
    let (right, wrong) = ((0, 8), (0, 9));
    for (call, other, code) in [
        (dup(right), dup(wrong), SLIPS),
        (cut(right, 0, 1), cut(wrong, 0, 1), SLIPS),
        (cut(right, 0, 601), cut(wrong, 0, 601), RANGE),
        (append(right, right), append(wrong, wrong), SAME),
        (append(right, (1, 9)), append(wrong, (1, 9)), PIECES),
        (append((1, 9), right), append((1, 9), wrong), PIECES),
        (drop(right, 601), drop(wrong, 601), RANGE),
        (keep(right, 601), keep(wrong, 601), RANGE),
        (keep(right, 520), keep(wrong, 520), PIECES),
        (pullup(right, 513), pullup(wrong, 513), LONG),
        (pack(right), pack(wrong), PIECES),
        (read(right, 0, 601, 0), read(wrong, 0, 601, 0), RANGE),
        (read(right, 0, 600, 0), read(wrong, 0, 600, 0), NARROW),
        (show(right, 513, 0), show(wrong, 513, 0), LONG),
        (list(right, 3), list(wrong, 3), NARROW),
        (stretches(right, 1), stretches(wrong, 1), NARROW),
    ] {
        desk.refused(call, code);
        desk.refused(other, SLIP);
    }
    // Pullup finds no buffer.
    let mut desk = Desk::open(engine, 2, 2, 2);
    desk.put(10, 0);
    desk.put(10, 1);
    desk.append(0, 1);
    desk.refused(pullup(0, 20), BUFFERS);
    desk.refused(pullup((0, 1), 20), SLIP);
}

/// The serial stops at 65,535, where a vacant slip is spent: its number is given no more, by put, dup or cut.
pub fn reading_23_spent(engine: Engine) {
    let mut desk = Desk::open(engine, 4, 8, 4);
    desk.put(10, 0);
    desk.set_serials(&[LAST - 2, 0, LAST, 0]);
    desk.free((0, LAST - 2));
    desk.serials(&[65_534, 0, 65_535, 0]);
    desk.put(10, (0, LAST - 1));
    desk.free((0, LAST - 1));
    desk.serials(&[65_535, 0, 65_535, 0]);
    // Slips 0 and 2 are spent and passed over.
    desk.put(600, 1);
    desk.dup(1, 3);
    assert_eq!(desk.vacant_slips(), [0, 2]);
    for call in [put(0), put(1), dup(1), cut(1, 0, 0), cut(1, 0, 9)] {
        desk.refused(call, SLIPS);
    }
    for serial in [0, 1, LAST - 2, LAST - 1, LAST] {
        for call in every_call(Name::new(0, serial), Name::new(1, 0), 0) {
            desk.refused(call, SLIP);
        }
    }
    // One vacated below the last serial is given again.
    desk.free(3);
    desk.cut(1, 500, 50, (3, 1));
    desk.refused(put(0), SLIPS);
    desk.free((3, 1));
    desk.dup(1, (3, 2));
    desk.free((3, 2));
    desk.put(0, (3, 3));
    desk.serials(&[65_535, 0, 65_535, 3]);
}

/// A slip held at 65,535 is like any other until it is vacated.
pub fn reading_23_held_at_the_last(engine: Engine) {
    let mut desk = aged(engine, [LAST; 4]);
    for slip in 0..2 {
        for call in [dup((slip, LAST)), cut((slip, LAST), 0, 600)] {
            desk.refused(call, SLIPS);
        }
    }
    desk.drop((0, LAST), 520);
    desk.keep((1, LAST), 550);
    desk.pullup((1, LAST), 5);
    desk.pack((1, LAST));
    desk.append((0, LAST), (1, LAST));
    desk.reads((0, LAST), &[&data(600)[520..], &data(550)].concat());
    desk.serials(&[65_535; 4]);
    desk.refused(length((1, LAST)), SLIP);
    desk.append((2, LAST), (0, LAST));
    desk.free((2, LAST));
    desk.tables(&[0; 4], &[LAST; 4], &[Z; 8], &[0; 6]);
    // All are spent: nothing is given, though everything is free.
    for call in [put(0), put(1), put(9_999)] {
        desk.refused(call, SLIPS);
    }
    desk.done_unchanged(Call::Audit, 0);
}

/// Spent slips are no room: 8 where only they are vacant, before 9 and 10 and after 3 and 6.
pub fn reading_23_no_room(engine: Engine) {
    let mut desk = Desk::open(engine, 1, 1, 3);
    desk.put(10, 0);
    desk.set_serials(&[0, LAST, LAST]);
    assert_eq!(desk.vacant_slips(), [1, 2]);
    for call in [put(0), put(1), put(513), dup(0), cut(0, 0, 0), cut(0, 9, 1)] {
        desk.refused(call, SLIPS);
    }
    desk.refused(dup((0, 1)), SLIP);
    desk.refused(cut((0, 1), 0, 0), SLIP);
    desk.refused(cut(0, 0, 11), RANGE);
    // With one more serial to go there is room for it, and then 9 and 10 are judged.
    desk.set_serials(&[0, LAST, LAST - 1]);
    desk.refused(put(1), PIECES);
    desk.refused(dup(0), PIECES);
    desk.cut(0, 10, 0, (2, LAST - 1));
    desk.refused(put(0), SLIPS);
    let mut desk = Desk::open(engine, 1, 3, 3);
    desk.put(10, 0);
    desk.set_serials(&[0, LAST, 6]);
    desk.refused(put(1), BUFFERS);
    desk.dup(0, (2, 6));
}

/// Free adds 1, and append for b, also where either side is empty; a's serial stays.
pub fn reading_24_vacated(engine: Engine) {
    let mut desk = Desk::open(engine, 4, 8, 4);
    desk.put(600, 0);
    desk.put(10, 1);
    desk.put(0, 2);
    desk.serials(&[0; 4]);
    desk.append(0, 1);
    desk.serials(&[0, 1, 0, 0]);
    // b is empty.
    desk.append(0, 2);
    desk.serials(&[0, 1, 1, 0]);
    // a is empty.
    desk.put(0, (1, 1));
    desk.append((1, 1), 0);
    desk.serials(&[1, 1, 1, 0]);
    desk.reads((1, 1), &[data(600), data(10)].concat());
    // Both are.
    desk.put(0, (0, 1));
    desk.put(0, (2, 1));
    desk.append((0, 1), (2, 1));
    desk.serials(&[1, 1, 2, 0]);
    desk.free((0, 1));
    desk.serials(&[2, 1, 2, 0]);

    // a may be older than b and at the last serial, and b goes no further than that.
    for (b, after) in [(0, 1), (LAST - 1, LAST), (LAST, LAST)] {
        for serials in [[LAST, b, 0, 0], [77, b, 0, 0]] {
            let mut desk = aged(engine, serials);
            desk.append((0, serials[0]), (1, b));
            desk.serials(&[serials[0], after, 0, 0].map(u64::from));
            desk.reads((0, serials[0]), &data(600).repeat(2));
            let mut desk = aged(engine, serials);
            desk.append(2, (1, b));
            desk.free((0, serials[0]));
            desk.serials(&[serials[0].saturating_add(1), after, 0, 0].map(u64::from));
        }
    }
}

/// No other call moves a serial: not where it empties the slip, puts its bytes afresh or gives a slip.
pub fn reading_24_others_move_none(engine: Engine) {
    let serials = [40, 50, 60, 70];
    let mut desk = aged(engine, serials);
    let kept = serials.map(u64::from);
    desk.cut((0, 40), 500, 50, (3, 70));
    desk.serials(&kept);
    desk.pullup((3, 70), 20);
    desk.pack((0, 40));
    desk.drop((0, 40), 520);
    desk.keep((1, 50), 599);
    desk.serials(&kept);
    desk.drop((0, 40), 80);
    desk.keep((1, 50), 0);
    desk.keep((2, 60), 0);
    desk.drop((3, 70), 50);
    desk.tables(&[1; 4], &serials, &[Z; 8], &[0; 6]);
    for slip in [(0, 40), (1, 50), (2, 60), (3, 70)] {
        desk.length(slip, 0);
    }
}

/// A refused call moves no serial, whatever it is refused for.
pub fn reading_24_refused_moves_none(engine: Engine) {
    let mut desk = Desk::open(engine, 3, 4, 3);
    desk.put(600, 0);
    desk.dup(0, 1);
    desk.put(1, 2);
    desk.set_serials(&[8, 9, LAST]);
    for _ in 0..3 {
        // 3: by another serial, and of a slip that is none.
        for slip in [(0, 7), (0, 9), (1, 8), (2, 0), (2, LAST - 1), (3, 8)] {
            desk.refused(free(slip), SLIP);
            desk.refused(append((0, 8), slip), SLIP);
            desk.refused(append(slip, (0, 8)), SLIP);
        }
        desk.refused(append((0, 8), (0, 8)), SAME);
        desk.refused(append((0, 8), (2, LAST)), PIECES);
        desk.refused(append((1, 9), (0, 8)), PIECES);
        desk.refused(keep((0, 8), 599), PIECES);
        desk.refused(dup((0, 8)), SLIPS);
        desk.refused(put(1), SLIPS);
        desk.refused(drop((0, 8), 601), RANGE);
    }
    desk.serials(&[8, 9, 65_535]);
    desk.reads((0, 8), &data(600));
}

/// The number answered is the slip's and 65,536 times the serial that it has when it is given.
pub fn reading_25_number_answered(engine: Engine) {
    for (slip, serial, number) in [
        (0, 0, 0),
        (3, 0, 3),
        (0, 1, 65_536),
        (3, 1, 65_539),
        (2, 255, 16_711_682),
        (2, 256, 16_777_218),
        (1, 32_768, 2_147_483_649),
        (0, LAST - 1, 4_294_836_224),
        (3, LAST - 1, 4_294_836_227),
    ] {
        // Every slip but this one is held.
        let mut desk = Desk::open(engine, 5, 8, 4);
        for held in 0..4 {
            desk.put(10, held);
        }
        desk.free(slip);
        let mut serials = [9; 4];
        serials[slip as usize] = serial;
        desk.set_serials(&serials);
        let held = if slip == 0 { (1, 9) } else { (0, 9) };
        for call in [
            put(0),
            put(600),
            dup(held),
            cut(held, 0, 0),
            cut(held, 2, 5),
        ] {
            let outcome = (engine)(&desk.pool, &desk.storage, &call);
            let answer = (outcome.code, outcome.number);
            assert_eq!(answer, (DONE, number), "{}", call.brief());
        }
        desk.done(put(20), number);
        desk.reads((slip, serial), &data(20));
        desk.serials(&serials.map(u64::from));
    }
}

/// The greatest number of all: the last of 256 slips, at the last serial at which it is given.
pub fn reading_25_greatest_number(engine: Engine) {
    let mut desk = Desk::open(engine, 1, 1, 256);
    desk.set_serials(&[LAST - 1; 256]);
    for slip in 0..255 {
        desk.put(0, (slip, LAST - 1));
    }
    desk.done(put(300), 4_294_836_479);
    desk.reads((255, LAST - 1), &data(300));
    desk.refused(put(0), SLIPS);
    desk.refused(length((255, LAST)), SLIP);
    desk.free((255, LAST - 1));
    desk.refused(put(0), SLIPS);
    desk.free((0, LAST - 1));
    desk.refused(put(0), SLIPS);
}

/// Open sets every serial to 0, of held, vacant and spent slips, and a refused open none.
pub fn open_of_serials(engine: Engine) {
    let opening = |pieces, slips| Call::Open {
        buffers: 6,
        pieces,
        slips,
    };
    let mut desk = aged(engine, [5, LAST, 0, LAST]);
    desk.refused(opening(8, 5), COUNTS);
    desk.refused(opening(0, 4), COUNTS);
    desk.done(opening(8, 4), 0);
    desk.tables(&[0; 4], &[0; 4], &[Z; 8], &[0; 6]);
    // Names of before are refused until the slip is given again, and then yesterday's name is today's.
    desk.refused(length((0, 5)), SLIP);
    desk.refused(length(2), SLIP);
    for slip in 0..4 {
        desk.put(1, slip);
    }
    desk.length(2, 1);
    // Other counts of the same length: what were pieces are serials now.
    let mut desk = aged(engine, [LAST; 4]);
    desk.done(opening(6, 9), 0);
    desk.tables(&[0; 9], &[0; 9], &[Z; 6], &[0; 6]);
    desk.put(0, 0);
}

/// One slip given and vacated over and over, through every serial that it has: then it is spent.
pub fn every_serial_once(engine: Engine) {
    let mut desk = Desk::open(engine, 1, 1, 1);
    for serial in 0..LAST {
        desk.put(0, (0, serial));
        desk.free((0, serial));
    }
    desk.tables(&[0], &[LAST], &[Z], &[0]);
    desk.refused(put(0), SLIPS);
    desk.refused(free((0, LAST - 1)), SLIP);
    desk.refused(free((0, LAST)), SLIP);
}
