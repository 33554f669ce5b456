//! A pool and its storage under one engine, with calls that assert their answers.

use super::compare::differences;
use super::model::{self, pool_length, Call, Name, Outcome, Slip, NO_VIEW, VERSION};

/// What does one call on any bytes: the model or the library.
pub type Engine = fn(&[u8], &[u8], &Call) -> Outcome;

/// The model as an engine.
pub fn by_model(pool: &[u8], storage: &[u8], call: &Call) -> Outcome {
    model::TRUE.step(pool, storage, call)
}

/// What stands in storage before the opening.
pub const UNTOUCHED: u8 = 0xEE;

/// Data byte i is i mod 251.
pub fn data(n: usize) -> Vec<u8> {
    (0..n).map(|i| (i % 251) as u8).collect()
}

pub struct Desk {
    pub engine: Engine,
    pub pool: Vec<u8>,
    pub storage: Vec<u8>,
}

impl Desk {
    /// An opened pool over bytes that are not zero.
    pub fn open(engine: Engine, buffers: u16, pieces: u16, slips: u16) -> Desk {
        let length = pool_length(buffers as u64, pieces as u64, slips as u64);
        let mut desk = Desk {
            engine,
            pool: vec![0xDD; length as usize],
            storage: vec![UNTOUCHED; 512 * buffers as usize],
        };
        desk.done(
            Call::Open {
                buffers,
                pieces,
                slips,
            },
            0,
        );
        desk
    }

    /// Makes the call and goes on from what it leaves.
    pub fn call(&mut self, call: Call) -> Outcome {
        let outcome = (self.engine)(&self.pool, &self.storage, &call);
        self.pool = outcome.pool.clone();
        self.storage = outcome.storage.clone();
        outcome
    }

    /// The call is done and answers the number.
    pub fn done(&mut self, call: Call, number: u64) -> Outcome {
        let brief = call.brief();
        let outcome = self.call(call);
        assert_eq!((outcome.code, outcome.number), (0, number), "{brief}");
        outcome
    }

    /// The call is done and not one byte of pool or storage changes.
    pub fn done_unchanged(&mut self, call: Call, number: u64) -> Outcome {
        let (pool, storage) = (self.pool.clone(), self.storage.clone());
        let brief = call.brief();
        let outcome = self.done(call, number);
        assert_eq!(outcome.pool, pool, "{brief}");
        assert_eq!(outcome.storage, storage, "{brief}");
        outcome
    }

    /// The call is refused with the code: number 0, no view, and nothing lent changes.
    pub fn refused(&mut self, call: Call, code: u16) {
        let (pool, storage) = (self.pool.clone(), self.storage.clone());
        let (lent, list) = (call.lent().to_vec(), call.list());
        let brief = call.brief();
        let outcome = self.call(call);
        assert_eq!((outcome.code, outcome.number), (code, 0), "{brief}");
        assert_eq!(outcome.view, NO_VIEW, "{brief}");
        assert_eq!(outcome.pool, pool, "{brief}");
        assert_eq!(outcome.storage, storage, "{brief}");
        assert_eq!(outcome.lent, lent, "{brief}");
        assert_eq!(outcome.list, list, "{brief}");
    }

    /// The call is done and answers the name of the slip that it gives.
    fn gives(&mut self, call: Call, slip: impl Into<Name>) {
        self.done(call, slip.into().answer());
    }

    pub fn put(&mut self, n: usize, slip: impl Into<Name>) {
        self.gives(put(n), slip);
    }

    pub fn free(&mut self, slip: impl Into<Name>) {
        self.done(free(slip), 0);
    }

    pub fn dup(&mut self, slip: impl Into<Name>, new: impl Into<Name>) {
        self.gives(dup(slip), new);
    }

    pub fn cut(&mut self, slip: impl Into<Name>, offset: u32, length: u32, new: impl Into<Name>) {
        self.gives(cut(slip, offset, length), new);
    }

    pub fn append(&mut self, a: impl Into<Name>, b: impl Into<Name>) {
        self.done(append(a, b), 0);
    }

    pub fn drop(&mut self, slip: impl Into<Name>, n: u32) {
        self.done(drop(slip, n), 0);
    }

    pub fn keep(&mut self, slip: impl Into<Name>, n: u32) {
        self.done(keep(slip, n), 0);
    }

    pub fn pullup(&mut self, slip: impl Into<Name>, n: u32) {
        self.done(pullup(slip, n), 0);
    }

    pub fn pack(&mut self, slip: impl Into<Name>) {
        self.done(pack(slip), 0);
    }

    pub fn length(&mut self, slip: impl Into<Name>, n: u64) {
        self.done_unchanged(length(slip), n);
    }

    /// The chain reads as these bytes, and output past them is unchanged.
    pub fn reads(&mut self, slip: impl Into<Name>, bytes: &[u8]) {
        let slip = slip.into();
        self.length(slip, bytes.len() as u64);
        let mut output = vec![0x99; bytes.len() + 3];
        let call = Call::Read {
            slip,
            offset: 0,
            length: bytes.len() as u32,
            output: output.clone(),
        };
        let outcome = self.done_unchanged(call, bytes.len() as u64);
        output[..bytes.len()].copy_from_slice(bytes);
        assert_eq!(outcome.lent, output, "bytes of slip {slip}");
    }

    /// The slip's wire list is these numbers, in numbers and in records, and what is lent past them
    /// is unchanged.
    pub fn lists(&mut self, slip: impl Into<Name>, numbers: &[u32]) {
        let slip = slip.into();
        let records = numbers.len() / 2;
        for call in [list(slip, numbers.len() + 3), stretches(slip, records + 2)] {
            let brief = call.brief();
            let mut wanted = call.list();
            wanted[..numbers.len()].copy_from_slice(numbers);
            let outcome = self.done_unchanged(call, records as u64);
            assert_eq!(outcome.list, wanted, "{brief}");
        }
    }

    /// The pool is exactly these tables: slips and their serials, pieces as (count, buffer, offset,
    /// length, next), buffer counts, each as its stored word.
    pub fn tables(&self, slips: &[u16], serials: &[u16], pieces: &[[u16; 5]], buffers: &[u16]) {
        assert_eq!(slips.len(), serials.len());
        let mut pool = b"SLP".to_vec();
        let header = [
            VERSION as u16,
            buffers.len() as u16,
            pieces.len() as u16,
            slips.len() as u16,
        ];
        let words = header
            .iter()
            .chain(
                slips
                    .iter()
                    .zip(serials)
                    .flat_map(|(state, serial)| [state, serial]),
            )
            .chain(pieces.iter().flatten())
            .chain(buffers);
        for word in words {
            pool.extend(word.to_le_bytes());
        }
        let text = differences("pool", &pool, &self.pool);
        assert!(text.is_empty(), "{text}");
    }

    /// Storage is exactly these bytes.
    pub fn stores(&self, bytes: &[u8]) {
        let text = differences("storage", bytes, &self.storage);
        assert!(text.is_empty(), "{text}");
    }

    /// Buffer b is exactly these bytes, then zeros.
    pub fn buffer_holds(&self, b: usize, bytes: &[u8]) {
        let mut whole = bytes.to_vec();
        whole.resize(512, 0);
        let text = differences("buffer", &whole, &self.storage[512 * b..512 * b + 512]);
        assert!(text.is_empty(), "{text}");
    }

    /// The tables as the model parses them.
    fn parsed(&self) -> model::Tables {
        model::Tables::parse(&self.pool, &self.storage).expect("a header that fits")
    }

    /// Each slip's serial is this.
    pub fn serials(&self, serials: &[u64]) {
        assert_eq!(self.parsed().serials, serials);
    }

    /// Sets each slip's serial by hand.
    pub fn set_serials(&mut self, serials: &[u16]) {
        assert_eq!(serials.len(), self.parsed().slips.len());
        for (slip, serial) in serials.iter().enumerate() {
            self.set(11 + 4 * slip + 2, *serial);
        }
    }

    /// The vacant slips by number, spent or not.
    pub fn vacant_slips(&self) -> Vec<usize> {
        let slips = self.parsed().slips;
        (0..slips.len())
            .filter(|i| slips[*i] == Slip::Vacant)
            .collect()
    }

    /// The free pieces by number.
    pub fn free_pieces(&self) -> Vec<usize> {
        let tables = self.parsed();
        (0..tables.pieces.len())
            .filter(|d| tables.pieces[*d].count == 0)
            .collect()
    }

    /// Sets one word of the pool.
    pub fn set(&mut self, at: usize, word: u16) {
        self.pool[at..at + 2].copy_from_slice(&word.to_le_bytes());
    }
}

/// A put of so many bytes of the data.
pub fn put(n: usize) -> Call {
    Call::Put { data: data(n) }
}

pub fn free(slip: impl Into<Name>) -> Call {
    Call::Free { slip: slip.into() }
}

pub fn dup(slip: impl Into<Name>) -> Call {
    Call::Dup { slip: slip.into() }
}

pub fn append(a: impl Into<Name>, b: impl Into<Name>) -> Call {
    Call::Append {
        a: a.into(),
        b: b.into(),
    }
}

pub fn drop(slip: impl Into<Name>, n: u32) -> Call {
    let slip = slip.into();
    Call::Drop { slip, n }
}

pub fn keep(slip: impl Into<Name>, n: u32) -> Call {
    let slip = slip.into();
    Call::Keep { slip, n }
}

pub fn pullup(slip: impl Into<Name>, n: u32) -> Call {
    let slip = slip.into();
    Call::Pullup { slip, n }
}

pub fn pack(slip: impl Into<Name>) -> Call {
    Call::Pack { slip: slip.into() }
}

pub fn length(slip: impl Into<Name>) -> Call {
    Call::Length { slip: slip.into() }
}

pub fn cut(slip: impl Into<Name>, offset: u32, length: u32) -> Call {
    Call::Cut {
        slip: slip.into(),
        offset,
        length,
    }
}

/// A read into so many lent bytes.
pub fn read(slip: impl Into<Name>, offset: u32, length: u32, output: usize) -> Call {
    Call::Read {
        slip: slip.into(),
        offset,
        length,
        output: vec![0x99; output],
    }
}

/// A show with so many lent bytes.
pub fn show(slip: impl Into<Name>, n: u32, scratch: usize) -> Call {
    Call::Show {
        slip: slip.into(),
        n,
        scratch: vec![0x99; scratch],
    }
}

/// What stands in a lent list before the call.
pub const OLD: u32 = 0x9999_9999;

/// A list into so many lent numbers.
pub fn list(slip: impl Into<Name>, numbers: usize) -> Call {
    Call::List {
        slip: slip.into(),
        list: vec![OLD; numbers],
    }
}

/// The same into so many lent records.
pub fn stretches(slip: impl Into<Name>, records: usize) -> Call {
    Call::Stretches {
        slip: slip.into(),
        list: vec![[OLD; 2]; records],
    }
}

/// A gather of this list into so many lent bytes.
pub fn gather(list: &[u32], output: usize) -> Call {
    Call::Gather {
        list: list.to_vec(),
        output: vec![0x99; output],
    }
}
