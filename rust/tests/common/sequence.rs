//! Long random lists of calls on the model, and on another engine beside it.

use std::time::Instant;

use super::compare;
use super::desk::{append, cut, drop, dup, free, keep, Engine};
use super::model::{Call, Outcome, BUFFERS, DONE, PIECES, TORN, TRUE};
use super::names::{Named, NAMINGS};
use super::random::{self, Mood, Notes, Random, Shape, LARGEST, SHAPES};
use super::recount::{recount, Recount};

/// A list under way: the pool that a done open has written, and what came after. In some lists the serials, or the bytes of
/// free buffers, are set by hand now and then, which leaves the pool sound.
pub struct List {
    pub random: Random,
    pub shape: Shape,
    pub mood: Mood,
    pub notes: Notes,
    pub pool: Vec<u8>,
    pub storage: Vec<u8>,
}

impl List {
    /// Starts a list in a pool of this shape, opened by the model over random bytes, none of storage zero.
    pub fn start(seed: u64, shape: Option<Shape>) -> List {
        let list = List::open(seed, shape, |_| ());
        assert!(list.storage.iter().all(|byte| *byte != 0));
        list
    }

    /// Starts a list in a pool of this shape, opened by the model over zeroed storage.
    pub fn start_zeroed(seed: u64, shape: Option<Shape>) -> List {
        let list = List::open(seed, shape, |storage| storage.fill(0));
        assert!(list.storage.iter().all(|byte| *byte == 0));
        list
    }

    /// Starts a list over storage of random bytes with which something was done.
    fn open(seed: u64, shape: Option<Shape>, prepare: fn(&mut [u8])) -> List {
        let mut random = Random::new(seed);
        let shape = shape.unwrap_or_else(|| random::shape(&mut random));
        let (pool, mut storage) = random::unopened(&mut random, shape);
        prepare(&mut storage);
        let opening = Call::Open {
            buffers: shape.0,
            pieces: shape.1,
            slips: shape.2,
        };
        let opened = TRUE.step(&pool, &storage, &opening);
        assert_eq!(opened.code, 0, "open of {shape:?}");
        let mood = Mood::new(&mut random, shape);
        List {
            random,
            shape,
            mood,
            notes: Notes::default(),
            pool: opened.pool,
            storage: opened.storage,
        }
    }

    /// The next random call.
    pub fn call(&mut self) -> Call {
        random::call(
            &mut self.random,
            &self.pool,
            &self.storage,
            &self.mood,
            &mut self.notes,
        )
    }

    /// Sets serials and free buffers by hand before every so many calls, as the mood has it; answers whether it was time.
    pub fn wear(&mut self, made: u64) -> bool {
        let time = made % 50 == 0;
        if time {
            let (random, pool) = (&mut self.random, &mut self.pool);
            self.mood.wear(random, pool);
            self.mood.soil(random, pool, &mut self.storage);
        }
        time
    }

    /// Goes on from an outcome.
    pub fn take(&mut self, outcome: Outcome) {
        self.pool = outcome.pool;
        self.storage = outcome.storage;
    }

    /// Makes random calls on the model.
    pub fn run(&mut self, calls: u64) {
        for made in 0..calls {
            self.wear(made);
            let call = self.call();
            let outcome = TRUE.step(&self.pool, &self.storage, &call);
            self.take(outcome);
        }
    }
}

/// Pools that random lists of so many calls and more leave on the model, with their seeds.
pub fn pools(count: u64, calls: u64) -> impl Iterator<Item = (u64, List)> {
    let first = setting("FULCRUMNEST_SEED", 10_000);
    let times = setting("FULCRUMNEST_TIMES", 1).max(1);
    (0..count * times).map(move |i| {
        let shape = SHAPES.get(i as usize).copied();
        let mut list = List::start(first + i, shape);
        list.run(calls + 3 * list.shape.1.min(FILLED) as u64);
        (first + i, list)
    })
}

/// Calls enough to fill a pool of so many pieces fill a larger one too, since puts grow with it.
const FILLED: u16 = 256;

/// A put of so many bytes, all the same.
fn put_all(n: u32) -> Call {
    Call::Put {
        data: vec![n as u8; n as usize],
    }
}

/// Of four slips one heads 28 shared pieces, two have an own piece before them, and one has two; the second is vacated once
/// on the way and the third three times.
fn shared(slips: u16) -> Vec<Call> {
    let put = put_all;
    let mut shared = Vec::new();
    for a in (0..slips).step_by(4) {
        let [b, c, d] = [a + 1, a + 2, a + 3];
        shared.extend([put(10), put(3_584), cut(b, 0, 3_584), append(b, c)]);
        shared.extend([cut(b, 0, 7_168), append(b, (c, 1)), append(a, b)]);
        shared.extend([dup(a), drop((b, 1), 10), dup(a)]);
        shared.extend([put(20), append(d, (c, 2)), dup(a)]);
    }
    shared
}

/// Pools of the largest shape that the model leaves: one with little in it, one with no slip, piece or buffer free, one whose
/// free slips, pieces and buffers lie scattered, and one with no slip or piece free, whose chains share their ends.
pub fn largest() -> Vec<(&'static str, List)> {
    let (b, p, s) = LARGEST;
    let half = s / 2;
    let each = 512 * (b / half) as u32;
    let sparse = [0, 1, 512, 513, 1_536].map(put_all).to_vec();
    let mut full = vec![put_all(each); half as usize];
    full.extend((0..half).map(|slip| cut(slip, 0, each)));
    let mut scattered = full.clone();
    scattered.extend((0..s).map(|slip| match slip % 3 {
        0 => free(slip),
        1 => drop(slip, 700),
        _ => keep(slip, 1_000),
    }));
    let after = |calls: Vec<Call>| {
        let mut list = List::start(u64::from(p), Some(LARGEST));
        for call in calls {
            let outcome = TRUE.step(&list.pool, &list.storage, &call);
            assert_eq!(outcome.code, 0, "{}", call.brief());
            list.take(outcome);
        }
        list
    };
    vec![
        ("sparse", after(sparse)),
        ("full", after(full)),
        ("scattered", after(scattered)),
        ("shared", after(shared(s))),
    ]
}

/// A drop or pullup that wants pieces: how many, how many are free at entry, how many it gives back, and its code.
pub struct Wanting {
    pulls: bool,
    wanted: u64,
    free: u64,
    given: u64,
    code: u16,
}

/// A kind of these.
type Kind = (&'static str, fn(&Wanting) -> bool);

/// Every kind that the lists come to.
pub const KINDS: [Kind; 13] = [
    ("drop, full, done", |w| w.full(false, 1, DONE)),
    ("drop, full, 9", |w| w.full(false, 1, PIECES)),
    ("drop, one free and some given back, done", |w| {
        !w.pulls && w.free == 1 && w.given > 0
    }),
    ("drop, one free and none given back, done", |w| {
        !w.pulls && w.free == 1 && w.given == 0
    }),
    ("pullup of one, full, done", |w| w.full(true, 1, DONE)),
    ("pullup of one, full, 9", |w| w.full(true, 1, PIECES)),
    ("pullup of one, full, 10", |w| w.full(true, 1, BUFFERS)),
    ("pullup of two, full, done", |w| w.full(true, 2, DONE)),
    ("pullup of two, full, one given back, 9", |w| {
        w.full(true, 2, PIECES) && w.given == 1
    }),
    ("pullup of two, full, none given back, 9", |w| {
        w.full(true, 2, PIECES) && w.given == 0
    }),
    ("pullup of two, full, 10", |w| w.full(true, 2, BUFFERS)),
    ("pullup of two, one free and one given back, done", |w| {
        w.one_each(DONE)
    }),
    ("pullup of two, one free and none given back, 9", |w| {
        w.wanted == 2 && w.free == 1 && w.given == 0 && w.code == PIECES
    }),
];

impl Wanting {
    /// The call as it is seen from the recount before it, if it wants pieces.
    fn of(before: &Recount, call: &Call, code: u16) -> Option<Wanting> {
        let pulls = match call {
            Call::Drop { .. } => false,
            Call::Pullup { .. } => true,
            _ => return None,
        };
        let (_, wanted, _) = before.wanted(call)?;
        (wanted > 0).then(|| Wanting {
            pulls,
            wanted,
            free: before.room().1,
            given: before.given_back(call),
            code,
        })
    }

    /// In a full table.
    fn full(&self, pulls: bool, wanted: u64, code: u16) -> bool {
        self.free == 0 && (self.pulls, self.wanted, self.code) == (pulls, wanted, code)
    }

    /// A pullup of two where one is free and one given back.
    fn one_each(&self, code: u16) -> bool {
        (self.wanted, self.free, self.given, self.code) == (2, 1, 1, code)
    }
}

/// How many calls and lists were made, and how often each code and each kind came.
#[derive(Default)]
pub struct Tally {
    pub calls: u64,
    pub lists: u64,
    pub codes: [u64; 11],
    pub kinds: [u64; KINDS.len()],
    pub namings: [u64; NAMINGS.len()],
}

impl Tally {
    /// What was made since then, in three lines.
    pub fn print(&self, begun: Instant) {
        println!(
            "{} calls in {} lists, {:.1} s, by code {:?}",
            self.calls,
            self.lists,
            begun.elapsed().as_secs_f64(),
            self.codes
        );
        println!("drop and pullup that want pieces, by kind {:?}", self.kinds);
        println!("slips named and given, by kind {:?}", self.namings);
    }

    /// Counts a call that the recount before it has judged.
    fn count(&mut self, named: &Named) {
        let code = named.after.code;
        self.codes[code as usize] += 1;
        if let Some(wanting) = Wanting::of(named.before, named.call, code) {
            for (times, (_, is)) in self.kinds.iter_mut().zip(KINDS) {
                *times += u64::from(is(&wanting));
            }
        }
        for (times, (_, is)) in self.namings.iter_mut().zip(NAMINGS) {
            *times += u64::from(is(named));
        }
    }

    /// Every code came but 2, since a list that starts from a done open never meets a torn pool, and so did every kind, often.
    pub fn all_met(&self) {
        for (code, times) in self.codes.iter().enumerate() {
            assert_eq!(*times == 0, code == 2, "code {code} came {times} times");
        }
        let kinds = KINDS.iter().map(|(kind, _)| kind);
        let kinds = kinds.zip(self.kinds);
        let namings = NAMINGS.iter().map(|(naming, _)| naming);
        for (kind, times) in kinds.chain(namings.zip(self.namings)) {
            let least = (self.calls / 50_000).max(1);
            assert!(times >= least, "{kind}: {times} times");
        }
    }
}

/// What demand 3 says of one call, from the recount before it; answers the recount after it.
pub fn demand_three(before: &Recount, call: &Call, after: &Outcome) -> Result<Recount, String> {
    if after.code == TORN {
        return Err("code 2 in a list that starts from a done open".to_string());
    }
    let full = before.full(call);
    let said = (8..=10).contains(&after.code).then_some(after.code);
    if full != said {
        return Err(format!("full by the recount: {full:?}, answered: {said:?}"));
    }
    recount(&after.pool)
}

/// Makes calls on the model, and on an engine beside it, with comparison and recount after each.
pub fn run_on(beside: Option<Engine>, what: &str, list: &mut List, calls: u64, tally: &mut Tally) {
    let recounted = |list: &List| recount(&list.pool).expect("a pool that calls have left");
    let mut found = recounted(list);
    for position in 0..calls {
        if list.wear(position) {
            found = recounted(list);
        }
        let call = list.call();
        let wanted = TRUE.step(&list.pool, &list.storage, &call);
        let differs = beside.and_then(|engine| {
            let got = engine(&list.pool, &list.storage, &call);
            compare::outcomes(&wanted, &got)
        });
        let failed = match (differs, demand_three(&found, &call, &wanted)) {
            (Some(text), _) | (None, Err(text)) => text,
            (None, Ok(after)) => {
                tally.count(&Named {
                    before: &found,
                    call: &call,
                    after: &wanted,
                });
                found = after;
                list.take(wanted);
                continue;
            }
        };
        panic!(
            "{what}, shape {:?}, call {position}: {}\n{failed}\n{}",
            list.shape,
            call.brief(),
            compare::dump("pool before", &list.pool)
        );
    }
    tally.calls += calls;
    tally.lists += 1;
}

/// The same in lists that start from an open, of these shapes first and then of random ones.
pub fn run_lists(beside: Option<Engine>, first_seed: u64, calls: u64, shapes: &[Shape]) -> Tally {
    let mut tally = Tally::default();
    let mut seed = first_seed;
    while tally.calls < calls {
        let shape = shapes.get(tally.lists as usize).copied();
        let mut list = List::start(seed, shape);
        // Large pools need long lists to fill.
        let pieces = list.shape.1.min(FILLED) as u64;
        let length = (40 + 4 * pieces).min(calls - tally.calls);
        run_on(
            beside,
            &format!("seed {seed}"),
            &mut list,
            length,
            &mut tally,
        );
        seed += 1;
    }
    tally
}

/// A number from the environment, or the usual one.
pub fn setting(name: &str, usual: u64) -> u64 {
    match std::env::var(name) {
        Ok(text) => text
            .replace('_', "")
            .parse()
            .unwrap_or_else(|_| panic!("{name} is no number: {text}")),
        Err(_) => usual,
    }
}
