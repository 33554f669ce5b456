//! The C declarations of the archive `libslp.a`, name for name.
//!
//! # Safety
//!
//! Each function asks of its caller that every pointer, with the length behind it, is a live slice
//! (its length in elements; an empty one may come with any pointer, also null), that no two of them
//! overlap, and that nobody else writes them, or reads what the call may write, until it is back.
//! Nothing is asked of the bytes and numbers in them.

/// An answer: a code (0 is done) and one number (0 with any other code).
#[repr(C)]
#[derive(Clone, Copy, Debug, PartialEq, Eq)]
pub struct Answer {
    /// 0, or the code of a [`Refusal`](crate::Refusal).
    pub code: u16,
    /// What the call answers: a slip ([`Slip::from_answer`](crate::Slip::from_answer)), a count of
    /// bytes or of records, or 0.
    pub number: u32,
}

/// The answer of show: the view is `number` bytes from `start` of the scratch or of storage.
#[repr(C)]
#[derive(Clone, Copy, Debug, PartialEq, Eq)]
pub struct Shown {
    /// 0, or the code of a [`Refusal`](crate::Refusal).
    pub code: u16,
    /// The view's byte count.
    pub number: u32,
    /// 1: a part of the scratch; 0: a part of storage.
    pub in_scratch: u16,
    /// Where the view starts.
    pub start: u32,
}

/// A record of a wire list: `length` bytes of storage from `position` on.
#[repr(C)]
#[derive(Clone, Copy, Debug, Default, PartialEq, Eq, Hash)]
pub struct Stretch {
    /// Where it begins in storage.
    pub position: u32,
    /// How many bytes it has.
    pub length: u32,
}

/// The answer of gather; a list may repeat itself, so the count may pass 32 bits.
#[repr(C)]
#[derive(Clone, Copy, Debug, PartialEq, Eq)]
pub struct Gathered {
    /// 0, or the code of a [`Refusal`](crate::Refusal).
    pub code: u16,
    /// How many bytes were copied.
    pub number: u64,
}

// C gives the structs these sizes; another layout here would read answers and lists wrongly.
const _: () = assert!(core::mem::size_of::<Answer>() == 8);
const _: () = assert!(core::mem::size_of::<Shown>() == 16);
const _: () = assert!(core::mem::size_of::<Stretch>() == 8);
const _: () = assert!(core::mem::size_of::<Gathered>() == 16);

extern "C" {
    /// [`calls::open`](crate::calls::open)
    pub fn slp_open(
        pool: *mut u8,
        pool_length: usize,
        storage: *mut u8,
        storage_length: usize,
        buffers: u16,
        pieces: u16,
        slips: u16,
    ) -> Answer;

    /// [`calls::audit`](crate::calls::audit)
    pub fn slp_audit(
        pool: *const u8,
        pool_length: usize,
        storage: *const u8,
        storage_length: usize,
    ) -> Answer;

    /// [`calls::put`](crate::calls::put)
    pub fn slp_put(
        pool: *mut u8,
        pool_length: usize,
        storage: *mut u8,
        storage_length: usize,
        data: *const u8,
        data_length: usize,
    ) -> Answer;

    /// [`calls::free`](crate::calls::free)
    pub fn slp_free(
        pool: *mut u8,
        pool_length: usize,
        storage: *mut u8,
        storage_length: usize,
        slip: u16,
        serial: u16,
    ) -> Answer;

    /// [`calls::dup`](crate::calls::dup)
    pub fn slp_dup(
        pool: *mut u8,
        pool_length: usize,
        storage: *const u8,
        storage_length: usize,
        slip: u16,
        serial: u16,
    ) -> Answer;

    /// [`calls::cut`](crate::calls::cut)
    pub fn slp_cut(
        pool: *mut u8,
        pool_length: usize,
        storage: *const u8,
        storage_length: usize,
        slip: u16,
        serial: u16,
        offset: u32,
        length: u32,
    ) -> Answer;

    /// [`calls::append`](crate::calls::append)
    pub fn slp_append(
        pool: *mut u8,
        pool_length: usize,
        storage: *mut u8,
        storage_length: usize,
        a: u16,
        a_serial: u16,
        b: u16,
        b_serial: u16,
    ) -> Answer;

    /// [`calls::drop`](crate::calls::drop)
    pub fn slp_drop(
        pool: *mut u8,
        pool_length: usize,
        storage: *mut u8,
        storage_length: usize,
        slip: u16,
        serial: u16,
        n: u32,
    ) -> Answer;

    /// [`calls::keep`](crate::calls::keep)
    pub fn slp_keep(
        pool: *mut u8,
        pool_length: usize,
        storage: *mut u8,
        storage_length: usize,
        slip: u16,
        serial: u16,
        n: u32,
    ) -> Answer;

    /// [`calls::pullup`](crate::calls::pullup)
    pub fn slp_pullup(
        pool: *mut u8,
        pool_length: usize,
        storage: *mut u8,
        storage_length: usize,
        slip: u16,
        serial: u16,
        n: u32,
    ) -> Answer;

    /// [`calls::pack`](crate::calls::pack)
    pub fn slp_pack(
        pool: *mut u8,
        pool_length: usize,
        storage: *mut u8,
        storage_length: usize,
        slip: u16,
        serial: u16,
    ) -> Answer;

    /// [`calls::length`](crate::calls::length)
    pub fn slp_length(
        pool: *const u8,
        pool_length: usize,
        storage: *const u8,
        storage_length: usize,
        slip: u16,
        serial: u16,
    ) -> Answer;

    /// [`calls::read`](crate::calls::read)
    pub fn slp_read(
        pool: *const u8,
        pool_length: usize,
        storage: *const u8,
        storage_length: usize,
        slip: u16,
        serial: u16,
        offset: u32,
        length: u32,
        output: *mut u8,
        output_length: usize,
    ) -> Answer;

    /// [`calls::show`](crate::calls::show)
    pub fn slp_show(
        pool: *const u8,
        pool_length: usize,
        storage: *const u8,
        storage_length: usize,
        slip: u16,
        serial: u16,
        n: u32,
        scratch: *mut u8,
        scratch_length: usize,
    ) -> Shown;

    /// [`calls::list`](crate::calls::list)
    pub fn slp_list(
        pool: *const u8,
        pool_length: usize,
        storage: *const u8,
        storage_length: usize,
        slip: u16,
        serial: u16,
        list: *mut u32,
        numbers: usize,
    ) -> Answer;

    /// [`calls::gather`](crate::calls::gather)
    pub fn slp_gather(
        storage: *const u8,
        storage_length: usize,
        list: *const u32,
        numbers: usize,
        output: *mut u8,
        output_length: usize,
    ) -> Gathered;

    /// [`calls::stretches`](crate::calls::stretches)
    pub fn slp_stretches(
        pool: *const u8,
        pool_length: usize,
        storage: *const u8,
        storage_length: usize,
        slip: u16,
        serial: u16,
        list: *mut Stretch,
        records: usize,
    ) -> Answer;
}
