//! The reader of wire lists, which asks no pool.

use crate::calls;
use crate::refusal::Refusal;

/// Copies the bytes that a wire list's records name, in order, from storage to the front of the
/// output and hands that front back; output past it is unchanged. A lone last number of the list is
/// no record.
///
/// Refused with [`Narrow`](Refusal::Narrow) where the records have more bytes than the output, and
/// then with [`List`](Refusal::List) where one is of no length or leaves storage. Of the list that
/// [`Pool::list`](crate::Pool::list) hands back it gives what [`Pool::read`](crate::Pool::read)
/// gives of the whole chain.
///
/// ```
/// # use fulcrumnest::{gather, Pool, Refusal, Shape};
/// # let shape = Shape { buffers: 4, pieces: 6, slips: 4 };
/// # let (mut pool, mut storage) = ([0; 95], [0; 2048]);
/// # let mut pool = Pool::open(&mut pool, &mut storage, shape)?;
/// let (slip, rest) = (pool.put(b"head, ")?, pool.put(b"body")?);
/// pool.append(slip, rest)?;
/// let (mut list, mut output) = ([0; 12], [0; 16]);
/// let list = pool.list(slip, &mut list)?;
/// assert_eq!(gather(pool.storage(), list, &mut output)?, b"head, body");
///
/// assert_eq!(gather(b"storage", &[1, 3, 0, 1], &mut output)?, b"tors");
/// assert_eq!(gather(b"storage", &[1, 7], &mut output), Err(Refusal::List));
/// assert_eq!(gather(b"storage", &[1, 7], &mut [0; 6]), Err(Refusal::Narrow));
/// # Ok::<(), Refusal>(())
/// ```
pub fn gather<'o>(storage: &[u8], list: &[u32], output: &'o mut [u8]) -> Result<&'o [u8], Refusal> {
    let copied = calls::gather(storage, list, output).result()?;
    Ok(&output[..copied as usize])
}
