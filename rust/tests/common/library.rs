//! The library as an engine: each call on copies of what is lent, with guards on both sides.

use std::mem::align_of;
use std::sync::atomic::{AtomicUsize, Ordering};

use fulcrumnest::{calls, Answer, Shown, Slip, Stretch};

use super::model::{Call, Name, Outcome, View, NO_VIEW};

/// Lent bytes or numbers between guards, at every alignment that their type allows in turn.
struct Lent<T> {
    all: Vec<T>,
    start: usize,
    length: usize,
}

const GUARD: usize = 32;

/// What stands around lent elements, different from place to place.
trait Guard: Copy + PartialEq {
    fn guard(position: usize) -> Self;
}

impl Guard for u8 {
    fn guard(position: usize) -> u8 {
        0xA5 ^ position as u8
    }
}

impl Guard for u32 {
    fn guard(position: usize) -> u32 {
        0xA5A5_A5A5 ^ position as u32
    }
}

impl<T: Guard> Lent<T> {
    fn new(content: &[T], lead: usize) -> Lent<T> {
        let start = GUARD + lead % 16;
        let end = start + content.len();
        let mut all: Vec<T> = Vec::with_capacity(end + GUARD);
        all.extend((0..start).map(T::guard));
        all.extend(content);
        all.extend((end..end + GUARD).map(T::guard));
        Lent {
            all,
            start,
            length: content.len(),
        }
    }

    fn lend(&mut self) -> &mut [T] {
        &mut self.all[self.start..self.start + self.length]
    }

    /// The content; where something around it has changed, all of it, which no comparison takes.
    fn take(mut self) -> Vec<T> {
        let end = self.start + self.length;
        let mut around = (0..self.start).chain(end..self.all.len());
        if around.all(|position| self.all[position] == T::guard(position)) {
            self.all.truncate(end);
            self.all.drain(..self.start);
        }
        self.all
    }
}

// A record is aligned as a number is.
const _: () = assert!(align_of::<Stretch>() == align_of::<u32>());

/// Numbers, two by two, as records.
fn records(numbers: &mut [u32]) -> &mut [Stretch] {
    let length = numbers.len() / 2;
    // The records lie inside the numbers, and any numbers are a record.
    unsafe { std::slice::from_raw_parts_mut(numbers.as_mut_ptr().cast(), length) }
}

/// All that a call may be lent.
struct All<'a> {
    pool: &'a mut [u8],
    storage: &'a mut [u8],
    lent: &'a mut [u8],
    list: &'a mut [u32],
}

/// One call of the library on any bytes.
pub fn step(pool: &[u8], storage: &[u8], call: &Call) -> Outcome {
    static TURN: AtomicUsize = AtomicUsize::new(0);
    let turn = TURN.fetch_add(1, Ordering::Relaxed);
    let mut pool = Lent::new(pool, turn);
    let mut storage = Lent::new(storage, turn / 3);
    let mut lent = Lent::new(call.lent(), turn / 5);
    let mut list = Lent::new(&call.list(), turn / 7);
    let all = All {
        pool: pool.lend(),
        storage: storage.lend(),
        lent: lent.lend(),
        list: list.lend(),
    };
    let (code, number, view) = answer(all, call);
    Outcome {
        code,
        number,
        view,
        pool: pool.take(),
        storage: storage.take(),
        lent: lent.take(),
        list: list.take(),
    }
}

/// The slip that the model names.
pub fn slip_of(name: Name) -> Slip {
    Slip::new(name.number, name.serial)
}

/// Code, number and view of a call.
fn answer(all: All<'_>, call: &Call) -> (u16, u64, View) {
    let answer = match call {
        Call::Read {
            slip,
            offset,
            length,
            ..
        } => calls::read(
            all.pool,
            all.storage,
            slip_of(*slip),
            *offset,
            *length,
            all.lent,
        ),
        Call::Show { slip, n, .. } => {
            return shown(calls::show(
                all.pool,
                all.storage,
                slip_of(*slip),
                *n,
                all.lent,
            ))
        }
        Call::List { slip, .. } => calls::list(all.pool, all.storage, slip_of(*slip), all.list),
        Call::Gather { .. } => {
            let gathered = calls::gather(all.storage, all.list, all.lent);
            return (gathered.code, gathered.number, NO_VIEW);
        }
        Call::Stretches { slip, .. } => {
            calls::stretches(all.pool, all.storage, slip_of(*slip), records(all.list))
        }
        _ => plain(all.pool, all.storage, call),
    };
    (answer.code, answer.number as u64, NO_VIEW)
}

/// A call that is lent no more than pool, storage and data.
fn plain(pool: &mut [u8], storage: &mut [u8], call: &Call) -> Answer {
    match call {
        Call::Open {
            buffers,
            pieces,
            slips,
        } => calls::open(pool, storage, *buffers, *pieces, *slips),
        Call::Audit => calls::audit(pool, storage),
        Call::Put { data } => calls::put(pool, storage, data),
        Call::Free { slip } => calls::free(pool, storage, slip_of(*slip)),
        Call::Dup { slip } => calls::dup(pool, storage, slip_of(*slip)),
        Call::Cut {
            slip,
            offset,
            length,
        } => calls::cut(pool, storage, slip_of(*slip), *offset, *length),
        Call::Append { a, b } => calls::append(pool, storage, slip_of(*a), slip_of(*b)),
        Call::Drop { slip, n } => calls::drop(pool, storage, slip_of(*slip), *n),
        Call::Keep { slip, n } => calls::keep(pool, storage, slip_of(*slip), *n),
        Call::Pullup { slip, n } => calls::pullup(pool, storage, slip_of(*slip), *n),
        Call::Pack { slip } => calls::pack(pool, storage, slip_of(*slip)),
        Call::Length { slip } => calls::length(pool, storage, slip_of(*slip)),
        Call::Read { .. } | Call::Show { .. } | Call::List { .. } => unreachable!("made above"),
        Call::Gather { .. } | Call::Stretches { .. } => unreachable!("made above"),
    }
}

fn shown(shown: Shown) -> (u16, u64, View) {
    assert!(shown.in_scratch <= 1, "in_scratch is {}", shown.in_scratch);
    let view = View {
        in_scratch: shown.in_scratch == 1,
        start: shown.start as u64,
    };
    (shown.code, shown.number as u64, view)
}
