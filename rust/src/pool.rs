//! A pool over lent memory, and its calls.

use std::fmt;

use crate::calls;
use crate::ffi::{Answer, Stretch};
use crate::picture::Picture;
use crate::refusal::Refusal;
use crate::shape::Shape;
use crate::slip::Slip;

/// A pool and its storage, both lent for as long as this lives.
///
/// A message is a chain of pieces over buffers of 512 bytes. Several pieces may lie on one buffer
/// and several chains may run into one piece, so that dup, cut and append copy no byte; counts say
/// who holds what. Nobody else can write the two slices meanwhile, and every call keeps a sound
/// pool sound: after a done [`open`](Pool::open) or [`attach`](Pool::attach) no call is refused
/// with [`Refusal::Torn`].
///
/// A refused call changes nothing. Room is counted when a call begins: what it gives back is room
/// for the next one. But [`drop`](Pool::drop) and [`pullup`](Pool::pullup) first give back the own
/// pieces in front of what stays, those that no other chain reaches: their numbers are then free for
/// the call, their buffers are not.
///
/// A buffer that loses its last piece, by [`free`](Pool::free), [`drop`](Pool::drop),
/// [`keep`](Pool::keep), [`pullup`](Pool::pullup) or [`pack`](Pool::pack), is cleaned: all its 512
/// bytes are zero after the call. No other call writes a buffer but to fill one that was free. So in
/// a pool opened over zeroed storage every free buffer is zero.
///
/// ```
/// use fulcrumnest::{Pool, Shape};
///
/// let shape = Shape { buffers: 4, pieces: 6, slips: 4 };
/// let (mut pool, mut storage) = ([0; 95], [0; 2048]);
/// let mut pool = Pool::open(&mut pool, &mut storage, shape)?;
///
/// let message = pool.put(b"to 7: 00120")?;
/// let amount = pool.cut(message, 6, 5)?;
/// pool.keep(message, 4)?;
///
/// let mut output = [0; 16];
/// assert_eq!(pool.read(message, 0, 4, &mut output)?, b"to 7");
/// assert_eq!(pool.read(amount, 0, 5, &mut output)?, b"00120");
/// # Ok::<(), fulcrumnest::Refusal>(())
/// ```
pub struct Pool<'a> {
    pool: &'a mut [u8],
    storage: &'a mut [u8],
}

impl fmt::Debug for Pool<'_> {
    fn fmt(&self, f: &mut fmt::Formatter<'_>) -> fmt::Result {
        f.debug_struct("Pool")
            .field("shape", &self.shape())
            .finish_non_exhaustive()
    }
}

impl<'a> Pool<'a> {
    /// Writes a fresh pool over whatever the bytes were: every slip vacant at serial 0, every piece
    /// and buffer free. Storage is unchanged. Slips of the pool before it are to be forgotten, since
    /// their names are given anew.
    ///
    /// Refused with [`Counts`](Refusal::Counts) where a count is outside its range or a slice has
    /// not exactly the length that [`pool_length`](crate::pool_length) and
    /// [`storage_length`](crate::storage_length) tell.
    ///
    /// ```
    /// use fulcrumnest::{pool_length, storage_length, Pool, Refusal, Shape};
    ///
    /// let shape = Shape { buffers: 4, pieces: 6, slips: 4 };
    /// let mut pool = vec![0; pool_length(shape)];
    /// let mut storage = vec![0; storage_length(shape.buffers)];
    /// assert!(Pool::open(&mut pool, &mut storage, shape).is_ok());
    ///
    /// let wrong = Pool::open(&mut pool, &mut storage[1..], shape);
    /// assert_eq!(wrong.unwrap_err(), Refusal::Counts);
    /// ```
    pub fn open(
        pool: &'a mut [u8],
        storage: &'a mut [u8],
        shape: Shape,
    ) -> Result<Pool<'a>, Refusal> {
        calls::open(pool, storage, shape.buffers, shape.pieces, shape.slips).result()?;
        Ok(Pool { pool, storage })
    }

    /// Takes up a pool as its bytes stand, once the audit finds it sound.
    ///
    /// Refused with [`Torn`](Refusal::Torn); [`Picture::fault`] then tells what is wrong.
    ///
    /// ```
    /// use fulcrumnest::{Pool, Refusal, Shape};
    ///
    /// let shape = Shape { buffers: 4, pieces: 6, slips: 4 };
    /// let (mut pool, mut storage) = ([0; 95], [0; 2048]);
    /// let slip = Pool::open(&mut pool, &mut storage, shape)?.put(b"kept")?;
    ///
    /// let again = Pool::attach(&mut pool, &mut storage)?;
    /// assert_eq!(again.length(slip)?, 4);
    ///
    /// pool[94] = 1;
    /// let torn = Pool::attach(&mut pool, &mut storage);
    /// assert_eq!(torn.unwrap_err(), Refusal::Torn);
    /// # Ok::<(), Refusal>(())
    /// ```
    pub fn attach(pool: &'a mut [u8], storage: &'a mut [u8]) -> Result<Pool<'a>, Refusal> {
        calls::audit(pool, storage).result()?;
        Ok(Pool { pool, storage })
    }

    /// The counts that the pool was opened with.
    pub fn shape(&self) -> Shape {
        let word = |at: usize| u16::from_le_bytes([self.pool[at], self.pool[at + 1]]);
        Shape {
            buffers: word(5),
            pieces: word(7),
            slips: word(9),
        }
    }

    /// Storage as it lies: where the records of a wire list lead.
    pub fn storage(&self) -> &[u8] {
        self.storage
    }

    /// The pool as a picture, to be printed or drawn.
    pub fn picture(&self) -> Picture<'_> {
        Picture::new(self.pool, self.storage)
    }

    /// Whether the pool is sound; of a pool held here it always is.
    pub fn audit(&self) -> Result<(), Refusal> {
        done(calls::audit(self.pool, self.storage))
    }

    /// Copies the data into fresh buffers, 512 bytes to each, and answers their slip. No data gives
    /// an empty chain.
    ///
    /// Refused with [`Slips`](Refusal::Slips), [`Pieces`](Refusal::Pieces) or
    /// [`Buffers`](Refusal::Buffers) where there is no room.
    ///
    /// ```
    /// # use fulcrumnest::{Pool, Refusal, Shape};
    /// # let shape = Shape { buffers: 4, pieces: 6, slips: 4 };
    /// # let (mut pool, mut storage) = ([0; 95], [0; 2048]);
    /// # let mut pool = Pool::open(&mut pool, &mut storage, shape)?;
    /// assert_eq!(pool.put(&[7; 2049]), Err(Refusal::Buffers));
    /// let slip = pool.put(&[7; 2048])?;
    /// assert_eq!(pool.length(slip)?, 2048);
    /// # Ok::<(), Refusal>(())
    /// ```
    pub fn put(&mut self, data: &[u8]) -> Result<Slip, Refusal> {
        slip_of(calls::put(self.pool, self.storage, data))
    }

    /// Gives up a chain and with it what nobody else holds; the slip is vacant and its serial one
    /// more, so that the old name is refused, also when the slip is given again. Once the serial has
    /// come to 65,535 the slip is spent and not given again. Buffers on which then no piece lies are
    /// zeroed.
    ///
    /// Refused with [`Slip`](Refusal::Slip).
    ///
    /// ```
    /// # use fulcrumnest::{Pool, Refusal, Shape};
    /// # let shape = Shape { buffers: 4, pieces: 6, slips: 4 };
    /// # let (mut pool, mut storage) = ([0; 95], [0; 2048]);
    /// # let mut pool = Pool::open(&mut pool, &mut storage, shape)?;
    /// let slip = pool.put(b"short-lived")?;
    /// pool.free(slip)?;
    /// let other = pool.put(b"another")?;
    /// assert_eq!((other.number, other.serial), (slip.number, slip.serial + 1));
    /// assert_eq!(pool.free(slip), Err(Refusal::Slip));
    /// pool.free(other)?;
    /// assert_eq!(pool.storage(), [0; 2048]);
    /// # Ok::<(), Refusal>(())
    /// ```
    pub fn free(&mut self, slip: Slip) -> Result<(), Refusal> {
        done(calls::free(self.pool, self.storage, slip))
    }

    /// A second slip that reads the same, at one new piece and no byte copied.
    ///
    /// Refused with [`Slip`](Refusal::Slip), [`Slips`](Refusal::Slips) or
    /// [`Pieces`](Refusal::Pieces).
    ///
    /// ```
    /// # use fulcrumnest::{Pool, Refusal, Shape};
    /// # let shape = Shape { buffers: 4, pieces: 6, slips: 4 };
    /// # let (mut pool, mut storage) = ([0; 95], [0; 2048]);
    /// # let mut pool = Pool::open(&mut pool, &mut storage, shape)?;
    /// let slip = pool.put(b"for two")?;
    /// let other = pool.dup(slip)?;
    /// pool.drop(slip, 4)?;
    /// assert_eq!((pool.length(slip)?, pool.length(other)?), (3, 7));
    /// # Ok::<(), Refusal>(())
    /// ```
    pub fn dup(&mut self, slip: Slip) -> Result<Slip, Refusal> {
        slip_of(calls::dup(self.pool, self.storage, slip))
    }

    /// A new slip that reads as `length` bytes of this one from `offset` on: one new piece for each
    /// that the range overlaps, and no byte copied.
    ///
    /// Refused with [`Slip`](Refusal::Slip), [`Range`](Refusal::Range), [`Slips`](Refusal::Slips)
    /// or [`Pieces`](Refusal::Pieces).
    ///
    /// ```
    /// # use fulcrumnest::{Pool, Refusal, Shape};
    /// # let shape = Shape { buffers: 4, pieces: 6, slips: 4 };
    /// # let (mut pool, mut storage) = ([0; 95], [0; 2048]);
    /// # let mut pool = Pool::open(&mut pool, &mut storage, shape)?;
    /// let slip = pool.put(b"head and body")?;
    /// let body = pool.cut(slip, 9, 4)?;
    /// let mut scratch = [0; 512];
    /// assert_eq!(pool.show(body, 4, &mut scratch)?, b"body");
    /// assert_eq!(pool.cut(slip, 9, 5), Err(Refusal::Range));
    /// # Ok::<(), Refusal>(())
    /// ```
    pub fn cut(&mut self, slip: Slip, offset: u32, length: u32) -> Result<Slip, Refusal> {
        slip_of(calls::cut(self.pool, self.storage, slip, offset, length))
    }

    /// Slip `a` reads as `a` and then `b`; `b` is vacant and its serial one more, as after
    /// [`free`](Pool::free). Other slips read as before; no buffer is given back.
    ///
    /// Refused with [`Slip`](Refusal::Slip), [`Same`](Refusal::Same) or
    /// [`Pieces`](Refusal::Pieces): pieces of `a` that others hold too are replaced by new ones.
    ///
    /// ```
    /// # use fulcrumnest::{Pool, Refusal, Shape};
    /// # let shape = Shape { buffers: 4, pieces: 6, slips: 4 };
    /// # let (mut pool, mut storage) = ([0; 95], [0; 2048]);
    /// # let mut pool = Pool::open(&mut pool, &mut storage, shape)?;
    /// let (head, body) = (pool.put(b"head, ")?, pool.put(b"body")?);
    /// pool.append(head, body)?;
    /// let mut scratch = [0; 512];
    /// assert_eq!(pool.show(head, 10, &mut scratch)?, b"head, body");
    /// assert_eq!(pool.append(head, head), Err(Refusal::Same));
    /// assert_eq!(pool.append(head, body), Err(Refusal::Slip));
    /// # Ok::<(), Refusal>(())
    /// ```
    pub fn append(&mut self, a: Slip, b: Slip) -> Result<(), Refusal> {
        done(calls::append(self.pool, self.storage, a, b))
    }

    /// The first `n` bytes go; of the whole length, an empty chain stays. Other slips read as
    /// before. Buffers in front of what stays on which then no piece lies are zeroed.
    ///
    /// Refused with [`Slip`](Refusal::Slip), [`Range`](Refusal::Range) or
    /// [`Pieces`](Refusal::Pieces), this never where the first piece is own.
    ///
    /// ```
    /// # use fulcrumnest::{Pool, Refusal, Shape};
    /// # let shape = Shape { buffers: 4, pieces: 6, slips: 4 };
    /// # let (mut pool, mut storage) = ([0; 95], [0; 2048]);
    /// # let mut pool = Pool::open(&mut pool, &mut storage, shape)?;
    /// let slip = pool.put(b"header body")?;
    /// pool.drop(slip, 7)?;
    /// let mut output = [0; 4];
    /// assert_eq!(pool.read(slip, 0, 4, &mut output)?, b"body");
    /// assert_eq!(pool.drop(slip, 5), Err(Refusal::Range));
    /// # Ok::<(), Refusal>(())
    /// ```
    pub fn drop(&mut self, slip: Slip, n: u32) -> Result<(), Refusal> {
        done(calls::drop(self.pool, self.storage, slip, n))
    }

    /// The first `n` bytes stay and the rest goes; of 0, an empty chain stays. Other slips read as
    /// before. Buffers behind what stays on which then no piece lies are zeroed.
    ///
    /// Refused with [`Slip`](Refusal::Slip), [`Range`](Refusal::Range) or
    /// [`Pieces`](Refusal::Pieces).
    ///
    /// ```
    /// # use fulcrumnest::{Pool, Refusal, Shape};
    /// # let shape = Shape { buffers: 4, pieces: 6, slips: 4 };
    /// # let (mut pool, mut storage) = ([0; 95], [0; 2048]);
    /// # let mut pool = Pool::open(&mut pool, &mut storage, shape)?;
    /// let slip = pool.put(b"body and trailer")?;
    /// pool.keep(slip, 4)?;
    /// assert_eq!(pool.length(slip)?, 4);
    /// assert_eq!(pool.keep(slip, 5), Err(Refusal::Range));
    /// # Ok::<(), Refusal>(())
    /// ```
    pub fn keep(&mut self, slip: Slip, n: u32) -> Result<(), Refusal> {
        done(calls::keep(self.pool, self.storage, slip, n))
    }

    /// The first `n` bytes, at most 512, come to lie in the first piece, where they don't already:
    /// they are copied to a fresh buffer, and then those on which no piece lies any more are zeroed.
    ///
    /// Refused with [`Slip`](Refusal::Slip), [`Long`](Refusal::Long), [`Range`](Refusal::Range),
    /// [`Pieces`](Refusal::Pieces) or [`Buffers`](Refusal::Buffers).
    ///
    /// ```
    /// # use fulcrumnest::{Pool, Refusal, Shape};
    /// # let shape = Shape { buffers: 4, pieces: 6, slips: 4 };
    /// # let (mut pool, mut storage) = ([0; 95], [0; 2048]);
    /// # let mut pool = Pool::open(&mut pool, &mut storage, shape)?;
    /// let (slip, rest) = (pool.put(b"he")?, pool.put(b"ader")?);
    /// pool.append(slip, rest)?;
    /// pool.pullup(slip, 4)?;
    /// // The bytes lie in one stretch now, so no scratch is needed to show them.
    /// assert_eq!(pool.show(slip, 4, &mut [])?, b"head");
    /// assert_eq!(pool.pullup(slip, 513), Err(Refusal::Long));
    /// # Ok::<(), Refusal>(())
    /// ```
    pub fn pullup(&mut self, slip: Slip, n: u32) -> Result<(), Refusal> {
        done(calls::pullup(self.pool, self.storage, slip, n))
    }

    /// Puts a chain of two or more pieces afresh under the same slip, in as few buffers as hold it;
    /// the old ones on which then no piece lies are zeroed.
    ///
    /// Refused with [`Slip`](Refusal::Slip), [`Pieces`](Refusal::Pieces) or
    /// [`Buffers`](Refusal::Buffers).
    ///
    /// ```
    /// # use fulcrumnest::{Pool, Refusal, Shape};
    /// # let shape = Shape { buffers: 4, pieces: 6, slips: 4 };
    /// # let (mut pool, mut storage) = ([0; 95], [0; 2048]);
    /// # let mut pool = Pool::open(&mut pool, &mut storage, shape)?;
    /// let (slip, rest) = (pool.put(b"one ")?, pool.put(b"piece")?);
    /// pool.append(slip, rest)?;
    /// pool.pack(slip)?;
    /// assert_eq!(pool.show(slip, 9, &mut [])?, b"one piece");
    /// # Ok::<(), Refusal>(())
    /// ```
    pub fn pack(&mut self, slip: Slip) -> Result<(), Refusal> {
        done(calls::pack(self.pool, self.storage, slip))
    }

    /// The chain's length in bytes.
    ///
    /// Refused with [`Slip`](Refusal::Slip).
    ///
    /// ```
    /// # use fulcrumnest::{Pool, Refusal, Shape, Slip};
    /// # let shape = Shape { buffers: 4, pieces: 6, slips: 4 };
    /// # let (mut pool, mut storage) = ([0; 95], [0; 2048]);
    /// # let mut pool = Pool::open(&mut pool, &mut storage, shape)?;
    /// let slip = pool.put(&[0; 600])?;
    /// assert_eq!(pool.length(slip)?, 600);
    /// assert_eq!(pool.length(Slip::new(4, 0)), Err(Refusal::Slip));
    /// # Ok::<(), Refusal>(())
    /// ```
    pub fn length(&self, slip: Slip) -> Result<u32, Refusal> {
        calls::length(self.pool, self.storage, slip).result()
    }

    /// Copies `length` bytes from `offset` on to the front of the output and hands that front back;
    /// output past it is unchanged.
    ///
    /// Refused with [`Slip`](Refusal::Slip), [`Range`](Refusal::Range) or
    /// [`Narrow`](Refusal::Narrow).
    ///
    /// ```
    /// # use fulcrumnest::{Pool, Refusal, Shape};
    /// # let shape = Shape { buffers: 4, pieces: 6, slips: 4 };
    /// # let (mut pool, mut storage) = ([0; 95], [0; 2048]);
    /// # let mut pool = Pool::open(&mut pool, &mut storage, shape)?;
    /// let slip = pool.put(b"head and body")?;
    /// let mut output = [b'.'; 6];
    /// assert_eq!(pool.read(slip, 9, 4, &mut output)?, b"body");
    /// assert_eq!(&output, b"body..");
    /// assert_eq!(pool.read(slip, 0, 7, &mut output), Err(Refusal::Narrow));
    /// # Ok::<(), Refusal>(())
    /// ```
    pub fn read<'o>(
        &self,
        slip: Slip,
        offset: u32,
        length: u32,
        output: &'o mut [u8],
    ) -> Result<&'o [u8], Refusal> {
        let answer = calls::read(self.pool, self.storage, slip, offset, length, output);
        let copied = answer.result()?;
        Ok(&output[..copied as usize])
    }

    /// The first `n` bytes, at most 512, in one stretch: a part of storage where the first piece
    /// has them, else copied to the scratch and a part of it.
    ///
    /// Refused with [`Slip`](Refusal::Slip), [`Long`](Refusal::Long), [`Range`](Refusal::Range) or,
    /// only where they are to be copied, [`Narrow`](Refusal::Narrow). A scratch of
    /// [`BUFFER_LENGTH`](crate::BUFFER_LENGTH) always takes them.
    ///
    /// ```
    /// # use fulcrumnest::{Pool, Refusal, Shape};
    /// # let shape = Shape { buffers: 4, pieces: 6, slips: 4 };
    /// # let (mut pool, mut storage) = ([0; 95], [0; 2048]);
    /// # let mut pool = Pool::open(&mut pool, &mut storage, shape)?;
    /// let (slip, rest) = (pool.put(b"head")?, pool.put(b"er")?);
    /// pool.append(slip, rest)?;
    /// assert_eq!(pool.show(slip, 4, &mut [])?, b"head");
    /// assert_eq!(pool.show(slip, 6, &mut []), Err(Refusal::Narrow));
    /// assert_eq!(pool.show(slip, 6, &mut [0; 512])?, b"header");
    /// # Ok::<(), Refusal>(())
    /// ```
    ///
    /// The view borrows pool and scratch, so neither can change while it is looked at:
    ///
    /// ```compile_fail,E0502
    /// # use fulcrumnest::{Pool, Refusal, Shape};
    /// # let shape = Shape { buffers: 4, pieces: 6, slips: 4 };
    /// # let (mut pool, mut storage) = ([0; 95], [0; 2048]);
    /// # let mut pool = Pool::open(&mut pool, &mut storage, shape)?;
    /// let slip = pool.put(b"head")?;
    /// let mut scratch = [0; 512];
    /// let view = pool.show(slip, 4, &mut scratch)?;
    /// pool.free(slip)?;
    /// assert_eq!(view, b"head");
    /// # Ok::<(), Refusal>(())
    /// ```
    pub fn show<'v>(
        &'v self,
        slip: Slip,
        n: u32,
        scratch: &'v mut [u8],
    ) -> Result<&'v [u8], Refusal> {
        let shown = calls::show(self.pool, self.storage, slip, n, scratch);
        shown.result()?;
        Ok(shown.view(self.storage, scratch))
    }

    /// Writes the chain's wire list to the front of the lent one and hands that front back: one
    /// record for each piece in chain order, two numbers each, position in storage and length.
    /// Numbers past it are unchanged; a lone last number is no record.
    ///
    /// Refused with [`Slip`](Refusal::Slip) or [`Narrow`](Refusal::Narrow).
    /// [`gather`](crate::gather) copies the bytes out from such a list.
    ///
    /// ```
    /// # use fulcrumnest::{Pool, Refusal, Shape};
    /// # let shape = Shape { buffers: 4, pieces: 6, slips: 4 };
    /// # let (mut pool, mut storage) = ([0; 95], [0; 2048]);
    /// # let mut pool = Pool::open(&mut pool, &mut storage, shape)?;
    /// let slip = pool.put(&[7; 600])?;
    /// let part = pool.cut(slip, 500, 50)?;
    /// let mut list = [0; 5];
    /// assert_eq!(pool.list(part, &mut list)?, [500, 12, 512, 38]);
    /// assert_eq!(pool.list(part, &mut list[..3]), Err(Refusal::Narrow));
    /// # Ok::<(), Refusal>(())
    /// ```
    pub fn list<'l>(&self, slip: Slip, list: &'l mut [u32]) -> Result<&'l [u32], Refusal> {
        let records = calls::list(self.pool, self.storage, slip, list).result()?;
        Ok(&list[..2 * records as usize])
    }

    /// The same wire list in records, for a card that wants them so.
    ///
    /// Refused with [`Slip`](Refusal::Slip) or [`Narrow`](Refusal::Narrow).
    ///
    /// ```
    /// # use fulcrumnest::{Pool, Refusal, Shape, Stretch};
    /// # let shape = Shape { buffers: 4, pieces: 6, slips: 4 };
    /// # let (mut pool, mut storage) = ([0; 95], [0; 2048]);
    /// # let mut pool = Pool::open(&mut pool, &mut storage, shape)?;
    /// let slip = pool.put(&[7; 600])?;
    /// let mut list = [Stretch::default(); 6];
    /// let records = pool.stretches(slip, &mut list)?;
    /// assert_eq!(records[0], Stretch { position: 0, length: 512 });
    /// assert_eq!(records[1..], [Stretch { position: 512, length: 88 }]);
    /// # Ok::<(), Refusal>(())
    /// ```
    pub fn stretches<'l>(
        &self,
        slip: Slip,
        list: &'l mut [Stretch],
    ) -> Result<&'l [Stretch], Refusal> {
        let records = calls::stretches(self.pool, self.storage, slip, list).result()?;
        Ok(&list[..records as usize])
    }
}

/// An answer without a number of its own.
fn done(answer: Answer) -> Result<(), Refusal> {
    answer.result().map(|_| ())
}

/// An answer whose number is a slip's, with its serial.
fn slip_of(answer: Answer) -> Result<Slip, Refusal> {
    answer.result().map(Slip::from_answer)
}
