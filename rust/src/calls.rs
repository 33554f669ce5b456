//! The calls as the library has them: each lends its slices and hands back the answer as it came, a
//! code and a number. [`Pool`](crate::Pool) and [`gather`](crate::gather) are what stands on them.
//!
//! Any bytes may be lent, of any length: the library judges them itself. An empty slice goes over
//! with a dangling pointer, which is never read. A slip is named by number and serial; the number
//! that is answered for one is taken apart by [`Slip::from_answer`].

use crate::ffi::{self, Answer, Gathered, Shown, Stretch};
use crate::slip::Slip;

// In every call below the pointers and lengths are those of live slices that stand apart from each
// other, because Rust lends no byte twice while one loan may write it; that is all the calls ask.

/// Writes the fresh pool; storage is unchanged.
pub fn open(pool: &mut [u8], storage: &mut [u8], buffers: u16, pieces: u16, slips: u16) -> Answer {
    unsafe {
        ffi::slp_open(
            pool.as_mut_ptr(),
            pool.len(),
            storage.as_mut_ptr(),
            storage.len(),
            buffers,
            pieces,
            slips,
        )
    }
}

/// Code 0 if the pool is sound, else 2.
pub fn audit(pool: &[u8], storage: &[u8]) -> Answer {
    unsafe { ffi::slp_audit(pool.as_ptr(), pool.len(), storage.as_ptr(), storage.len()) }
}

/// Puts the data into fresh pieces and answers the new slip.
pub fn put(pool: &mut [u8], storage: &mut [u8], data: &[u8]) -> Answer {
    unsafe {
        ffi::slp_put(
            pool.as_mut_ptr(),
            pool.len(),
            storage.as_mut_ptr(),
            storage.len(),
            data.as_ptr(),
            data.len(),
        )
    }
}

/// Releases the head; the slip is vacant, and its serial one more. Buffers given back are zeroed.
pub fn free(pool: &mut [u8], storage: &mut [u8], slip: Slip) -> Answer {
    unsafe {
        ffi::slp_free(
            pool.as_mut_ptr(),
            pool.len(),
            storage.as_mut_ptr(),
            storage.len(),
            slip.number,
            slip.serial,
        )
    }
}

/// A new slip on one new piece equal to the head; answers the new slip.
pub fn dup(pool: &mut [u8], storage: &[u8], slip: Slip) -> Answer {
    unsafe {
        ffi::slp_dup(
            pool.as_mut_ptr(),
            pool.len(),
            storage.as_ptr(),
            storage.len(),
            slip.number,
            slip.serial,
        )
    }
}

/// A new slip on one new piece for each piece that overlaps the range; answers the new slip.
pub fn cut(pool: &mut [u8], storage: &[u8], slip: Slip, offset: u32, length: u32) -> Answer {
    unsafe {
        ffi::slp_cut(
            pool.as_mut_ptr(),
            pool.len(),
            storage.as_ptr(),
            storage.len(),
            slip.number,
            slip.serial,
            offset,
            length,
        )
    }
}

/// Slip a reads as a then b; slip b is vacant, and its serial one more. No buffer is given back, and
/// storage is unchanged.
pub fn append(pool: &mut [u8], storage: &mut [u8], a: Slip, b: Slip) -> Answer {
    unsafe {
        ffi::slp_append(
            pool.as_mut_ptr(),
            pool.len(),
            storage.as_mut_ptr(),
            storage.len(),
            a.number,
            a.serial,
            b.number,
            b.serial,
        )
    }
}

/// The first n bytes go. Buffers given back are zeroed.
pub fn drop(pool: &mut [u8], storage: &mut [u8], slip: Slip, n: u32) -> Answer {
    unsafe {
        ffi::slp_drop(
            pool.as_mut_ptr(),
            pool.len(),
            storage.as_mut_ptr(),
            storage.len(),
            slip.number,
            slip.serial,
            n,
        )
    }
}

/// The first n bytes stay. Buffers given back are zeroed.
pub fn keep(pool: &mut [u8], storage: &mut [u8], slip: Slip, n: u32) -> Answer {
    unsafe {
        ffi::slp_keep(
            pool.as_mut_ptr(),
            pool.len(),
            storage.as_mut_ptr(),
            storage.len(),
            slip.number,
            slip.serial,
            n,
        )
    }
}

/// The first n bytes come to lie in the first piece. Buffers given back are zeroed, once these are
/// copied.
pub fn pullup(pool: &mut [u8], storage: &mut [u8], slip: Slip, n: u32) -> Answer {
    unsafe {
        ffi::slp_pullup(
            pool.as_mut_ptr(),
            pool.len(),
            storage.as_mut_ptr(),
            storage.len(),
            slip.number,
            slip.serial,
            n,
        )
    }
}

/// The chain's bytes are put afresh under the same slip. Buffers given back are zeroed, once these
/// are copied.
pub fn pack(pool: &mut [u8], storage: &mut [u8], slip: Slip) -> Answer {
    unsafe {
        ffi::slp_pack(
            pool.as_mut_ptr(),
            pool.len(),
            storage.as_mut_ptr(),
            storage.len(),
            slip.number,
            slip.serial,
        )
    }
}

/// Answers the chain's length.
pub fn length(pool: &[u8], storage: &[u8], slip: Slip) -> Answer {
    unsafe {
        ffi::slp_length(
            pool.as_ptr(),
            pool.len(),
            storage.as_ptr(),
            storage.len(),
            slip.number,
            slip.serial,
        )
    }
}

/// Copies the asked bytes to the front of the output and answers how many they are.
pub fn read(
    pool: &[u8],
    storage: &[u8],
    slip: Slip,
    offset: u32,
    length: u32,
    output: &mut [u8],
) -> Answer {
    unsafe {
        ffi::slp_read(
            pool.as_ptr(),
            pool.len(),
            storage.as_ptr(),
            storage.len(),
            slip.number,
            slip.serial,
            offset,
            length,
            output.as_mut_ptr(),
            output.len(),
        )
    }
}

/// The first n bytes in one stretch, in storage where they lie so, else copied to the scratch.
pub fn show(pool: &[u8], storage: &[u8], slip: Slip, n: u32, scratch: &mut [u8]) -> Shown {
    unsafe {
        ffi::slp_show(
            pool.as_ptr(),
            pool.len(),
            storage.as_ptr(),
            storage.len(),
            slip.number,
            slip.serial,
            n,
            scratch.as_mut_ptr(),
            scratch.len(),
        )
    }
}

/// Writes one record of two numbers for each piece to the front of the list, position in storage
/// and length, and answers how many records they are.
pub fn list(pool: &[u8], storage: &[u8], slip: Slip, list: &mut [u32]) -> Answer {
    unsafe {
        ffi::slp_list(
            pool.as_ptr(),
            pool.len(),
            storage.as_ptr(),
            storage.len(),
            slip.number,
            slip.serial,
            list.as_mut_ptr(),
            list.len(),
        )
    }
}

/// Copies the bytes of the list's records to the front of the output and answers how many they are.
pub fn gather(storage: &[u8], list: &[u32], output: &mut [u8]) -> Gathered {
    unsafe {
        ffi::slp_gather(
            storage.as_ptr(),
            storage.len(),
            list.as_ptr(),
            list.len(),
            output.as_mut_ptr(),
            output.len(),
        )
    }
}

/// As [`list`], into a list of records.
pub fn stretches(pool: &[u8], storage: &[u8], slip: Slip, list: &mut [Stretch]) -> Answer {
    unsafe {
        ffi::slp_stretches(
            pool.as_ptr(),
            pool.len(),
            storage.as_ptr(),
            storage.len(),
            slip.number,
            slip.serial,
            list.as_mut_ptr(),
            list.len(),
        )
    }
}
