//! A pool under way: each call made on it, with its answer as text.

use std::fmt;

use fulcrumnest::{
    calls, pool_length, storage_length, Picture, Pool, Refusal, Shape, Slip, Stretch, BUFFER_LENGTH,
};

use crate::script::Call;

/// The longest chain: as many full pieces as a pool can have.
const LONGEST: usize = BUFFER_LENGTH * Shape::MOST.pieces as usize;

/// What a call answers.
pub enum Answer {
    Done,
    Slip(Slip),
    Number(u32),
    Read(Vec<u8>),
    Shown { bytes: Vec<u8>, place: String },
    Listed(Vec<Stretch>),
    Refused(Refusal),
}

impl From<Refusal> for Answer {
    fn from(refusal: Refusal) -> Answer {
        Answer::Refused(refusal)
    }
}

impl fmt::Display for Answer {
    fn fmt(&self, f: &mut fmt::Formatter<'_>) -> fmt::Result {
        match self {
            Answer::Done => write!(f, "done"),
            Answer::Slip(slip) => write!(f, "slip {slip}"),
            Answer::Number(number) => write!(f, "{number}"),
            Answer::Read(bytes) => {
                write!(f, "{}", bytes.len())?;
                rows(f, bytes)
            }
            Answer::Shown { bytes, place } => {
                write!(f, "{} in {place}", bytes.len())?;
                rows(f, bytes)
            }
            Answer::Listed(records) => {
                write!(f, "{}", records.len())?;
                let mut lines = records.iter().map(record);
                lines.try_for_each(|line| write!(f, "\n  {line}"))
            }
            Answer::Refused(refusal) => write!(f, "{} {}", refusal.code(), refusal.word()),
        }
    }
}

/// A record as a line: position and length.
pub fn record(stretch: &Stretch) -> String {
    format!("{} {}", stretch.position, stretch.length)
}

/// Bytes in rows of 16: where the row starts, the bytes in hexadecimal, and as text.
fn rows(f: &mut fmt::Formatter<'_>, bytes: &[u8]) -> fmt::Result {
    let wide = bytes.len().saturating_sub(1).to_string().len();
    for (row, sixteen) in bytes.chunks(16).enumerate() {
        let hex: Vec<String> = sixteen.iter().map(|byte| format!("{byte:02X}")).collect();
        let text: String = sixteen.iter().map(|byte| printed(*byte)).collect();
        write!(f, "\n  {:>wide$}  {:<47}  {text}", 16 * row, hex.join(" "))?;
    }
    Ok(())
}

/// A byte as a letter, or a point where it is none.
fn printed(byte: u8) -> char {
    match byte {
        b' '..=b'~' => byte as char,
        _ => '.',
    }
}

/// The pool and storage of a run, once a pool is open.
#[derive(Default)]
pub struct Trial {
    held: Option<(Vec<u8>, Vec<u8>)>,
}

impl Trial {
    /// Makes a call and answers; none where there is no pool to make it on.
    pub fn answer(&mut self, call: &Call) -> Option<Answer> {
        if let Call::Pool(shape) = call {
            return Some(self.open(*shape));
        }
        let (pool, storage) = self.held.as_mut()?;
        Some(match call {
            Call::Show(slip, n) => show(pool, storage, *slip, *n),
            Call::List(slip) => {
                let records = listed(pool, storage, *slip);
                records.map_or_else(Answer::from, Answer::Listed)
            }
            _ => made(pool, storage, call).unwrap_or_else(Answer::from),
        })
    }

    /// A fresh pool over storage of zeros; refused, the one before stays.
    fn open(&mut self, shape: Shape) -> Answer {
        let mut pool = vec![0; pool_length(shape)];
        let mut storage = vec![0; storage_length(shape.buffers)];
        match Pool::open(&mut pool, &mut storage, shape) {
            Ok(_) => (),
            Err(refusal) => return Answer::Refused(refusal),
        }
        self.held = Some((pool, storage));
        Answer::Done
    }

    /// The bytes of pool and storage, once a pool is open.
    pub fn bytes(&self) -> Option<(&[u8], &[u8])> {
        let (pool, storage) = self.held.as_ref()?;
        Some((pool, storage))
    }

    /// The drawing of the pool, once one is open.
    pub fn picture(&self) -> Option<Picture<'_>> {
        let (pool, storage) = self.bytes()?;
        Some(Picture::new(pool, storage))
    }
}

/// Any call on an open pool but show and list.
fn made(pool: &mut [u8], storage: &mut [u8], call: &Call) -> Result<Answer, Refusal> {
    let mut pool = Pool::attach(pool, storage)?;
    match call {
        Call::Put(data) => return Ok(Answer::Slip(pool.put(&data.bytes())?)),
        Call::Free(slip) => pool.free(*slip)?,
        Call::Dup(slip) => return Ok(Answer::Slip(pool.dup(*slip)?)),
        Call::Cut(slip, offset, length) => {
            return Ok(Answer::Slip(pool.cut(*slip, *offset, *length)?));
        }
        Call::Append(a, b) => pool.append(*a, *b)?,
        Call::Drop(slip, n) => pool.drop(*slip, *n)?,
        Call::Keep(slip, n) => pool.keep(*slip, *n)?,
        Call::Pullup(slip, n) => pool.pullup(*slip, *n)?,
        Call::Pack(slip) => pool.pack(*slip)?,
        Call::Length(slip) => return Ok(Answer::Number(pool.length(*slip)?)),
        Call::Read(slip, offset, length) => {
            // No chain has more bytes, so an output of as many is never too narrow.
            let mut output = vec![0; (*length as usize).min(LONGEST)];
            let bytes = pool.read(*slip, *offset, *length, &mut output)?;
            return Ok(Answer::Read(bytes.to_vec()));
        }
        Call::Pool(_) | Call::Audit | Call::Show(..) | Call::List(_) => pool.audit()?,
    }
    Ok(Answer::Done)
}

/// A show, with the place where its view lies.
fn show(pool: &[u8], storage: &[u8], slip: Slip, n: u32) -> Answer {
    let mut scratch = [0; BUFFER_LENGTH];
    let shown = calls::show(pool, storage, slip, n, &mut scratch);
    if let Err(refusal) = shown.result() {
        return Answer::Refused(refusal);
    }
    let place = match shown.in_scratch {
        1 => "scratch".to_string(),
        _ => format!("storage from {}", shown.start),
    };
    let bytes = shown.view(storage, &scratch).to_vec();
    Answer::Shown { bytes, place }
}

/// The records of a slip's wire list.
pub fn listed(pool: &[u8], storage: &[u8], slip: Slip) -> Result<Vec<Stretch>, Refusal> {
    // No chain has more pieces, so a list of as many records is never too short.
    let mut list = vec![Stretch::default(); Shape::MOST.pieces as usize];
    let records = calls::stretches(pool, storage, slip, &mut list).result()?;
    list.truncate(records as usize);
    Ok(list)
}
