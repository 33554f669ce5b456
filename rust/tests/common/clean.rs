//! Cleaned buffers: a buffer whose count comes to 0 is zero, all of it, after the call; for any engine, by hand and in random lists.

use super::compare::differences;
use super::desk::{append, data, drop, free, keep, pack, pullup, Desk, Engine};
use super::model::{Call, Tables, BUFFERS, DONE, LONG, MOST, PIECES, RANGE, SLIP, TORN};
use super::morning::{
    Buffer::{self, Clean, Data, Old, Tens},
    Z,
};
use super::random::Mood;
use super::recount::recount;
use super::sequence::List;

/// Storage is exactly these buffers.
fn holds(desk: &Desk, buffers: &[Buffer]) {
    let bytes: Vec<u8> = buffers.iter().flat_map(Buffer::bytes).collect();
    desk.stores(&bytes);
}

/// A desk of B 4, P 8, S 4.
fn desk(engine: Engine) -> Desk {
    Desk::open(engine, 4, 8, 4)
}

/// The same with 1,100 bytes under slip 0, on buffers 0 to 2.
fn three_buffers(engine: Engine) -> Desk {
    let mut desk = desk(engine);
    desk.put(1_100, 0);
    holds(&desk, THREE);
    desk
}

const THREE: &[Buffer] = &[Data(0, 512), Data(512, 1_024), Data(1_024, 1_100), Old];

/// Slip 0 has so many pieces of 10 bytes, each on a buffer of its own.
fn tens(engine: Engine, buffers: u16, pieces: u16, count: u16) -> Desk {
    let mut desk = Desk::open(engine, buffers, pieces, 4);
    for slip in 0..count {
        desk.put(10, slip);
    }
    for slip in 1..count {
        desk.append(0, slip);
    }
    desk
}

/// All 512 bytes are zeroed, whichever of them the last piece had.
pub fn reading_38_whole_buffer(engine: Engine) {
    for (before, kept) in [(0, 1), (0, 512), (100, 50), (500, 12), (511, 1)] {
        let mut desk = Desk::open(engine, 2, 2, 2);
        desk.put(512, 0);
        desk.drop(0, before);
        desk.keep(0, kept);
        desk.length(0, kept as u64);
        holds(&desk, &[Data(0, 512), Old]);
        desk.free(0);
        holds(&desk, &[Clean, Old]);
    }
}

/// A buffer keeps every byte until the last of its pieces goes, whichever that is.
pub fn reading_38_last_piece(engine: Engine) {
    let bytes = data(512);
    for order in [[0, 1, 2], [1, 2, 0], [2, 0, 1]] {
        let mut desk = desk(engine);
        desk.put(512, 0);
        desk.cut(0, 0, 10, 1);
        desk.cut(0, 500, 12, 2);
        for slip in &order[..2] {
            desk.free(*slip);
            holds(&desk, &[Data(0, 512), Old, Old, Old]);
        }
        let read = [&bytes[..], &bytes[..10], &bytes[500..]];
        desk.reads(order[2], read[order[2] as usize]);
        desk.free(order[2]);
        holds(&desk, &[Clean, Old, Old, Old]);
    }
    // Two pieces of one chain on one buffer, given up one after the other and both at once.
    for first in [10, 0] {
        let mut desk = desk(engine);
        desk.put(10, 0);
        desk.cut(0, 5, 5, 1);
        desk.append(0, 1);
        desk.drop(0, first);
        holds(&desk, &[Data(0, 10), Old, Old, Old]);
        desk.length(0, 15 - first as u64);
        desk.free(0);
        holds(&desk, &[Clean, Old, Old, Old]);
    }
}

/// Buffers that a call neither takes nor gives back keep every byte, in use or free.
pub fn reading_38_others_stay(engine: Engine) {
    let mut desk = Desk::open(engine, 5, 6, 4);
    for slip in 0..4 {
        desk.put(10, slip);
    }
    desk.free(1);
    let ten = || Data(0, 10);
    holds(&desk, &[ten(), Clean, ten(), ten(), Old]);
    // A free buffer with bytes in it, before the one given back and behind it.
    desk.storage[512..1_024].copy_from_slice(&Old.bytes());
    desk.free(2);
    holds(&desk, &[ten(), Old, Clean, ten(), Old]);
    desk.free(3);
    holds(&desk, &[ten(), Old, Clean, Clean, Old]);
    desk.free(0);
    holds(&desk, &[Clean, Old, Clean, Clean, Old]);
    desk.done_unchanged(Call::Audit, 0);
}

/// Free cleans what the chain alone held: not what a cut still lies on, nor what lies behind a shared piece.
pub fn reading_38_free(engine: Engine) {
    let mut desk = desk(engine);
    desk.put(600, 0);
    desk.cut(0, 500, 50, 1);
    desk.free(0);
    holds(&desk, &[Data(0, 512), Data(512, 600), Old, Old]);
    desk.reads(1, &data(550)[500..]);
    desk.cut(1, 0, 12, (0, 1));
    desk.free(1);
    holds(&desk, &[Data(0, 512), Clean, Old, Old]);
    desk.reads((0, 1), &data(512)[500..]);
    desk.free((0, 1));
    holds(&desk, &[Clean, Clean, Old, Old]);
    desk.tables(&[0; 4], &[2, 1, 0, 0], &[Z; 8], &[0; 4]);

    let mut desk = three_buffers(engine);
    desk.dup(0, 1);
    desk.drop(1, 512);
    holds(&desk, THREE);
    desk.free(0);
    holds(&desk, &[Clean, Data(512, 1_024), Data(1_024, 1_100), Old]);
    desk.reads(1, &data(1_100)[512..]);
    desk.free(1);
    holds(&desk, &[Clean, Clean, Clean, Old]);

    // An empty chain gives nothing back.
    desk.put(0, (0, 1));
    desk.free((0, 1));
    holds(&desk, &[Clean, Clean, Clean, Old]);
}

/// Drop cleans the buffers that lie wholly in front of what stays; the piece with the cut keeps its whole buffer.
pub fn reading_38_drop(engine: Engine) {
    let bytes = data(1_100);
    let mut desk = three_buffers(engine);
    // At a border, inside a piece, across a border, and to the end.
    desk.drop(0, 512);
    holds(&desk, &[Clean, Data(512, 1_024), Data(1_024, 1_100), Old]);
    desk.drop(0, 100);
    holds(&desk, &[Clean, Data(512, 1_024), Data(1_024, 1_100), Old]);
    desk.drop(0, 422);
    holds(&desk, &[Clean, Clean, Data(1_024, 1_100), Old]);
    desk.reads(0, &bytes[1_034..]);
    desk.drop(0, 66);
    holds(&desk, &[Clean, Clean, Clean, Old]);
    desk.length(0, 0);

    // Across two borders, and across all.
    let mut desk = three_buffers(engine);
    desk.drop(0, 1_030);
    holds(&desk, &[Clean, Clean, Data(1_024, 1_100), Old]);
    let mut desk = three_buffers(engine);
    desk.drop(0, 1_100);
    holds(&desk, &[Clean, Clean, Clean, Old]);

    // A cut still lies on the front.
    let mut desk = three_buffers(engine);
    desk.cut(0, 7, 10, 1);
    desk.drop(0, 600);
    holds(&desk, THREE);
    desk.reads(1, &bytes[7..17]);
    desk.free(1);
    holds(&desk, &[Clean, Data(512, 1_024), Data(1_024, 1_100), Old]);

    // Inside a shared piece: the front goes, and its number is taken for what stays.
    let mut desk = desk_of(engine, 3);
    desk.put(600, 0);
    desk.dup(0, 1);
    desk.drop(1, 512);
    holds(&desk, &[Data(0, 512), Data(512, 600), Old, Old]);
    desk.drop(0, 520);
    holds(&desk, &[Clean, Data(512, 600), Old, Old]);
    desk.tables(
        &[2, 3, 0, 0],
        &[0; 4],
        &[[1, 1, 8, 80, 0], [1, 1, 0, 88, 0], Z],
        &[0, 2, 0, 0],
    );
    desk.reads(0, &bytes[520..600]);
    desk.reads(1, &bytes[512..600]);
}

/// A desk of B 4 and S 4 with so many pieces.
fn desk_of(engine: Engine, pieces: u16) -> Desk {
    Desk::open(engine, 4, pieces, 4)
}

/// Keep cleans the buffers that lie wholly behind what stays; the last piece kept keeps its whole buffer.
pub fn reading_38_keep(engine: Engine) {
    let bytes = data(1_100);
    let mut desk = three_buffers(engine);
    desk.keep(0, 1_030);
    holds(&desk, THREE);
    desk.keep(0, 600);
    holds(&desk, &[Data(0, 512), Data(512, 1_024), Clean, Old]);
    desk.reads(0, &bytes[..600]);
    desk.keep(0, 512);
    holds(&desk, &[Data(0, 512), Clean, Clean, Old]);
    desk.keep(0, 1);
    holds(&desk, &[Data(0, 512), Clean, Clean, Old]);
    desk.keep(0, 0);
    holds(&desk, &[Clean, Clean, Clean, Old]);
    desk.length(0, 0);

    // Two at once, and all.
    let mut desk = three_buffers(engine);
    desk.keep(0, 9);
    holds(&desk, &[Data(0, 512), Clean, Clean, Old]);
    let mut desk = three_buffers(engine);
    desk.keep(0, 0);
    holds(&desk, &[Clean, Clean, Clean, Old]);

    // Pieces that aren't own are replaced on their buffers, which another slip holds until it is freed.
    let mut desk = three_buffers(engine);
    desk.dup(0, 1);
    desk.keep(0, 520);
    holds(&desk, THREE);
    desk.reads(1, &bytes);
    desk.free(1);
    holds(&desk, &[Data(0, 512), Data(512, 1_024), Clean, Old]);
    desk.reads(0, &bytes[..520]);
}

/// Pullup copies, and then cleans the buffers wholly in front of what stays.
pub fn reading_38_pullup(engine: Engine) {
    let bytes = data(10).repeat(3);
    let mut desk = tens(engine, 4, 8, 2);
    desk.pullup(0, 20);
    holds(&desk, &[Clean, Clean, Tens(20), Old]);
    let mut desk = tens(engine, 4, 8, 2);
    desk.pullup(0, 15);
    holds(&desk, &[Clean, Data(0, 10), Tens(15), Old]);
    desk.reads(0, &bytes[..20]);
    let mut desk = tens(engine, 4, 8, 3);
    desk.pullup(0, 25);
    holds(&desk, &[Clean, Clean, Data(0, 10), Tens(25)]);
    desk.reads(0, &bytes);

    // The whole of both buffers is cleaned, not only what was copied.
    let mut desk = desk_of(engine, 2);
    desk.put(600, 0);
    desk.drop(0, 500);
    desk.pullup(0, 100);
    holds(&desk, &[Clean, Clean, Data(500, 600), Old]);
    desk.reads(0, &data(600)[500..]);

    // A cut lies on the first buffer, and a dup on both.
    let mut desk = desk_of(engine, 4);
    desk.put(10, 0);
    desk.put(10, 1);
    desk.cut(0, 2, 3, 2);
    desk.append(0, 1);
    desk.pullup(0, 20);
    holds(&desk, &[Data(0, 10), Clean, Tens(20), Old]);
    desk.reads(2, &[2, 3, 4]);
    desk.free(2);
    holds(&desk, &[Clean, Clean, Tens(20), Old]);
    let mut desk = tens(engine, 4, 8, 2);
    desk.dup(0, (1, 1));
    desk.pullup(0, 20);
    holds(&desk, &[Data(0, 10), Data(0, 10), Tens(20), Old]);
    desk.reads((1, 1), &bytes[..20]);

    // What changes nothing cleans nothing.
    desk.done_unchanged(pullup(0, 20), 0);
    desk.done_unchanged(pullup(0, 0), 0);
}

/// Pack copies, and then cleans what the old chain alone held.
pub fn reading_38_pack(engine: Engine) {
    let mut desk = desk_of(engine, 4);
    desk.put(600, 0);
    desk.pack(0);
    holds(&desk, &[Clean, Clean, Data(0, 512), Data(512, 600)]);
    desk.reads(0, &data(600));
    desk.pack(0);
    holds(&desk, &[Data(0, 512), Data(512, 600), Clean, Clean]);
    desk.reads(0, &data(600));

    let mut desk = tens(engine, 4, 4, 3);
    desk.pack(0);
    holds(&desk, &[Clean, Clean, Clean, Tens(30)]);
    desk.done_unchanged(pack(0), 0);

    // A cut lies on the first buffer, and a dup on both.
    let mut desk = desk_of(engine, 5);
    desk.put(600, 0);
    desk.cut(0, 3, 5, 1);
    desk.pack(0);
    holds(&desk, &[Data(0, 512), Clean, Data(0, 512), Data(512, 600)]);
    desk.reads(1, &data(8)[3..]);
    let mut desk = desk_of(engine, 5);
    desk.put(600, 0);
    desk.dup(0, 1);
    desk.pack(1);
    holds(
        &desk,
        &[Data(0, 512), Data(512, 600), Data(0, 512), Data(512, 600)],
    );
    desk.reads(0, &data(600));
    desk.free(0);
    holds(&desk, &[Clean, Clean, Data(0, 512), Data(512, 600)]);
    desk.reads(1, &data(600));
}

/// Append gives no buffer back: every byte of storage stays, also where pieces of a are replaced.
pub fn reading_38_append(engine: Engine) {
    // All but the first piece of a are shared.
    let mut desk = three_buffers(engine);
    desk.dup(0, 1);
    desk.put(7, 2);
    let whole = &[
        Data(0, 512),
        Data(512, 1_024),
        Data(1_024, 1_100),
        Data(0, 7),
    ];
    desk.append(0, 2);
    holds(&desk, whole);
    desk.reads(0, &[data(1_100), data(7)].concat());
    desk.reads(1, &data(1_100));
    // b is empty, and then a.
    desk.put(0, (2, 1));
    desk.append(0, (2, 1));
    holds(&desk, whole);
    desk.put(0, (2, 2));
    desk.append((2, 2), 0);
    holds(&desk, whole);
    desk.free(1);
    holds(&desk, whole);
    desk.free((2, 2));
    holds(&desk, &[Clean, Clean, Clean, Clean]);

    // b heads a piece inside a's chain, and the very head of it.
    for front in [0, 512] {
        let mut desk = three_buffers(engine);
        desk.dup(0, 1);
        desk.drop(1, 512);
        desk.drop(0, front);
        let before = desk.storage.clone();
        desk.append(0, 1);
        desk.stores(&before);
    }
}

/// A refused call cleans nothing, and the same call once it is done does.
pub fn reading_38_refused(engine: Engine) {
    // By another serial, of a vacant slip, and past the chain's end.
    let mut desk = tens(engine, 4, 8, 2);
    let before = &[Data(0, 10), Data(0, 10), Old, Old];
    for slip in [(0, 1), (1, 0), (1, 1), (4, 0)] {
        desk.refused(free(slip), SLIP);
        desk.refused(drop(slip, 20), SLIP);
        desk.refused(keep(slip, 0), SLIP);
        desk.refused(pullup(slip, 20), SLIP);
        desk.refused(pack(slip), SLIP);
        desk.refused(append(0, slip), SLIP);
    }
    desk.refused(drop(0, 21), RANGE);
    desk.refused(keep(0, 21), RANGE);
    desk.refused(pullup(0, 21), RANGE);
    desk.refused(pullup(0, 513), LONG);
    holds(&desk, before);
    desk.drop(0, 20);
    holds(&desk, &[Clean, Clean, Old, Old]);

    // For want of a buffer.
    let mut desk = tens(engine, 2, 4, 2);
    desk.refused(pullup(0, 15), BUFFERS);
    desk.refused(pullup(0, 20), BUFFERS);
    desk.refused(pack(0), BUFFERS);
    holds(&desk, &[Data(0, 10), Data(0, 10)]);
    desk.keep(0, 10);
    holds(&desk, &[Data(0, 10), Clean]);

    // For want of pieces: the old head is own where pullup and pack are refused, the second piece where drop and keep are.
    let mut desk = tens(engine, 4, 3, 2);
    desk.dup(0, (1, 1));
    desk.refused(pullup(0, 15), PIECES);
    desk.refused(pack(0), PIECES);
    desk.refused(keep(0, 15), PIECES);
    holds(&desk, before);
    desk.drop((1, 1), 10);
    desk.dup(0, 2);
    desk.refused(drop((1, 1), 5), PIECES);
    holds(&desk, before);
    desk.free(2);
    desk.pack(0);
    holds(&desk, &[Clean, Data(0, 10), Tens(20), Old]);
}

/// On a torn pool no call cleans anything.
pub fn reading_38_torn(engine: Engine) {
    let mut desk = tens(engine, 4, 8, 2);
    for (at, byte) in [(0, 0), (3, 1), (5, 5), (11, 9)] {
        let old = std::mem::replace(&mut desk.pool[at], byte);
        desk.refused(free(0), TORN);
        desk.refused(drop(0, 20), TORN);
        desk.refused(keep(0, 0), TORN);
        desk.refused(pullup(0, 20), TORN);
        desk.refused(pack(0), TORN);
        desk.pool[at] = old;
    }
    desk.free(0);
    holds(&desk, &[Clean, Clean, Old, Old]);
}

/// Open touches no storage: what the old pool held keeps its bytes, is free and not clean, and the audit passes it.
pub fn reading_38_open(engine: Engine) {
    let mut desk = three_buffers(engine);
    for (buffers, pieces, slips) in [(4, 8, 4), (4, 6, 9), (4, 8, 4)] {
        let opening = Call::Open {
            buffers,
            pieces,
            slips,
        };
        desk.done(opening, 0);
        holds(&desk, THREE);
        desk.done_unchanged(Call::Audit, 0);
    }
    // Taken, a buffer is filled whole; given back, it alone is cleaned.
    desk.put(3, 0);
    holds(
        &desk,
        &[Data(0, 3), Data(512, 1_024), Data(1_024, 1_100), Old],
    );
    desk.free(0);
    holds(&desk, &[Clean, Data(512, 1_024), Data(1_024, 1_100), Old]);
    desk.done_unchanged(Call::Audit, 0);
}

/// The largest pool: all its storage given back but the last byte's buffer, but the first one's, and all.
pub fn reading_38_largest(engine: Engine) {
    let all = 512 * MOST.0 as usize;
    let mut desk = Desk::open(engine, MOST.0 as u16, MOST.1 as u16, 2);
    let bytes = data(all);
    desk.put(all, 0);
    desk.stores(&bytes);
    desk.drop(0, all as u32 - 1);
    desk.stores(&[&vec![0; all - 512], &bytes[all - 512..]].concat());
    desk.free(0);
    desk.stores(&vec![0; all]);
    desk.put(all, (0, 1));
    desk.keep((0, 1), 1);
    desk.stores(&[&bytes[..512], &vec![0; all - 512]].concat());
    desk.keep((0, 1), 0);
    desk.stores(&vec![0; all]);
    // Packed into the second half: the first is then clean.
    let half = all / 2;
    desk.put(half, 1);
    desk.pack(1);
    desk.stores(&[&vec![0; half], &bytes[..half]].concat());
}

/// The calls that give buffers back.
const GIVING: [&str; 5] = ["free", "drop", "keep", "pullup", "pack"];

/// The place of a call among them.
fn giving(call: &Call) -> Option<usize> {
    match call {
        Call::Free { .. } => Some(0),
        Call::Drop { .. } => Some(1),
        Call::Keep { .. } => Some(2),
        Call::Pullup { .. } => Some(3),
        Call::Pack { .. } => Some(4),
        _ => None,
    }
}

/// What random lists have come to.
#[derive(Default)]
pub struct Cleaned {
    calls: u64,
    refused: u64,
    refused_opens: u64,
    done_opens: u64,
    /// How often a buffer was given back by each of these calls.
    given: [u64; GIVING.len()],
    /// How often one was taken.
    taken: u64,
    /// Buffers that no call of their list took.
    never_taken: u64,
}

impl Cleaned {
    /// Counts a call; `before` and `now` are the pieces on each buffer, as the recounts find them.
    fn count(&mut self, call: &Call, code: u16, before: &[u64], now: &[u64]) {
        let opens = u64::from(matches!(call, Call::Open { .. }));
        self.calls += 1;
        if code != DONE {
            self.refused += 1;
            self.refused_opens += opens;
            return;
        }
        self.done_opens += opens;
        for (was, is) in before.iter().zip(now) {
            match (*was > 0, *is > 0) {
                (true, false) if opens == 0 => {
                    let call = giving(call).expect("a call that may give buffers back");
                    self.given[call] += 1;
                }
                (false, true) => self.taken += 1,
                _ => (),
            }
        }
    }

    /// Buffers were given back by each of the calls, and others taken, often; calls were refused, opens among them.
    fn all_met(&self) {
        println!(
            "{} calls, {} refused; {} buffers taken, {} never; given back by {GIVING:?}: {:?}",
            self.calls, self.refused, self.taken, self.never_taken, self.given
        );
        // Fewer calls, as a variable may ask, need not come to everything.
        if self.calls < 20_000 {
            return;
        }
        let given = self.given.iter();
        let mut often = given.chain([&self.taken, &self.refused]);
        assert!(often.all(|times| *times >= self.calls / 400));
        assert!(self.refused_opens > 0);
    }
}

/// How many pieces lie on each buffer, found from slips, nexts and pieces' buffers, with no stored count.
fn lying(pool: &[u8]) -> Vec<u64> {
    recount(pool).expect("demand 3").lying
}

/// The bytes of buffer b.
fn buffer(storage: &[u8], b: usize) -> &[u8] {
    &storage[512 * b..][..512]
}

/// That a buffer is as it is wanted after a call.
fn same(place: &dyn Fn() -> String, b: usize, wanted: &[u8], got: &[u8]) {
    if wanted != got {
        let text = differences("buffer", wanted, got);
        panic!("{}: buffer {b}\n{text}", place());
    }
}

/// Calls of one list.
const LENGTH: u64 = 150;

/// The list in the mood to give buffers back, every second one.
fn moody(mut list: List, seed: u64) -> List {
    if seed % 2 == 0 {
        list.mood = Mood::new(&mut list.random, list.shape).giving_back();
    }
    list
}

/// In a pool opened over zeroed storage every free buffer is zero after every call of a list that holds no other done open.
pub fn zeroed_lists(engine: Engine, first_seed: u64, calls: u64) {
    let mut met = Cleaned::default();
    for seed in first_seed..first_seed + calls.div_ceil(LENGTH) {
        let mut list = moody(List::start_zeroed(seed, None), seed);
        let mut before = lying(&list.pool);
        for made in 0..LENGTH {
            let call = list.call();
            let after = engine(&list.pool, &list.storage, &call);
            // That one would begin another list: it is not gone on from.
            if matches!(call, Call::Open { .. }) && after.code == DONE {
                continue;
            }
            let place = || format!("seed {seed}, call {made}: {}", call.brief());
            let now = lying(&after.pool);
            for b in (0..now.len()).filter(|b| now[*b] == 0) {
                same(&place, b, &[0; 512], buffer(&after.storage, b));
            }
            met.count(&call, after.code, &before, &now);
            before = now;
            list.take(after);
        }
    }
    assert_eq!(met.done_opens, 0);
    met.all_met();
}

/// What a call copies into the buffers that it takes, by the chain as it was before.
fn copied(list: &List, call: &Call) -> Vec<u8> {
    let chain = |slip: u16| {
        let tables = Tables::parse(&list.pool, &list.storage).expect("sound");
        tables.read(&list.storage, &tables.chain(tables.slips[slip as usize]))
    };
    match call {
        Call::Put { data } => data.clone(),
        Call::Pullup { slip, n } => chain(slip.number)[..*n as usize].to_vec(),
        Call::Pack { slip } => chain(slip.number),
        _ => Vec::new(),
    }
}

/// Over storage of which no byte is zero: after every call a buffer given back is zero, one taken holds its bytes and then
/// zeros, and every other has the bytes that it had; so one that was never taken has those from before the opening.
pub fn old_lists(engine: Engine, first_seed: u64, calls: u64) {
    let mut met = Cleaned::default();
    for seed in first_seed..first_seed + calls.div_ceil(LENGTH) {
        let mut list = moody(List::start(seed, None), seed);
        let start = list.storage.clone();
        let mut before = lying(&list.pool);
        let mut ever = vec![false; before.len()];
        for made in 0..LENGTH {
            let call = list.call();
            let after = engine(&list.pool, &list.storage, &call);
            let opened = matches!(call, Call::Open { .. }) && after.code == DONE;
            let place = || format!("seed {seed}, call {made}: {}", call.brief());
            let now = lying(&after.pool);
            let takes = (0..now.len()).any(|b| before[b] == 0 && now[b] > 0);
            let bytes = if takes {
                copied(&list, &call)
            } else {
                Vec::new()
            };
            let mut portions = bytes.chunks(512);
            for b in 0..now.len() {
                let mut wanted = buffer(&list.storage, b).to_vec();
                match (before[b] > 0, now[b] > 0) {
                    (true, false) if !opened => wanted.fill(0),
                    (false, true) => {
                        let portion = portions.next().expect("as many buffers as portions");
                        wanted = [portion, &vec![0; 512 - portion.len()]].concat();
                        ever[b] = true;
                    }
                    _ => (),
                }
                same(&place, b, &wanted, buffer(&after.storage, b));
            }
            assert_eq!(portions.next(), None, "{}", place());
            // A no leaves every byte of pool and storage.
            let still = after.pool == list.pool && after.storage == list.storage;
            assert!(after.code == DONE || still, "{}", place());
            met.count(&call, after.code, &before, &now);
            before = now;
            list.take(after);
        }
        let place = || format!("seed {seed}, after the list");
        for b in (0..ever.len()).filter(|b| !ever[*b]) {
            same(&place, b, buffer(&start, b), buffer(&list.storage, b));
            met.never_taken += 1;
        }
    }
    assert!(calls < 20_000 || met.done_opens > 0 && met.never_taken > 0);
    met.all_met();
}
