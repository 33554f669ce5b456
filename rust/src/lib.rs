//! Chains of message bytes over shared buffers, on a library that is proved: no buffer is given out
//! again while a message still lies in it.
//!
//! The caller lends two slices: a pool, which holds the tables, and storage, which holds the
//! buffers. [`Pool`] makes the calls on them; a chain is known by its [`Slip`], whose serial tells
//! it from those that had the same number before, and a call that can't be done says why
//! ([`Refusal`]) and changes nothing. A card that reads storage itself is given a chain's wire list
//! ([`Pool::list`], [`Pool::stretches`]), and [`gather`] reads one. [`Picture`] draws what a pool
//! holds.
//!
//! ```
//! use fulcrumnest::{pool_length, storage_length, Pool, Refusal, Shape};
//!
//! let shape = Shape { buffers: 4, pieces: 6, slips: 4 };
//! let mut pool = vec![0; pool_length(shape)];
//! let mut storage = vec![0; storage_length(shape.buffers)];
//! let mut pool = Pool::open(&mut pool, &mut storage, shape)?;
//!
//! let message = pool.put(b"pay 00120 to account 7")?;
//! let amount = pool.cut(message, 4, 5)?;
//! pool.free(message)?;
//! let other = pool.put(b"another message under the same number")?;
//!
//! let mut scratch = [0; 512];
//! assert_eq!(pool.show(amount, 5, &mut scratch)?, b"00120");
//! assert_eq!(other.number, message.number);
//! assert_eq!(pool.length(message), Err(Refusal::Slip));
//! println!("{}", pool.picture());
//! # Ok::<(), Refusal>(())
//! ```
//!
//! [`calls`] has the same calls one step lower, on any bytes and with codes and numbers; [`ffi`] is
//! what C declares. The archive `libslp.a` is linked from `../target/staticlib`, or from where the
//! variable FULCRUMNEST_LIB says at build time.

#![deny(missing_docs)]
#![deny(unsafe_code)]

#[allow(unsafe_code)]
pub mod calls;
mod fault;
#[allow(unsafe_code)]
pub mod ffi;
mod picture;
mod pool;
mod refusal;
mod shape;
mod slip;
mod svg;
mod tables;
mod wire;

pub use fault::Fault;
pub use ffi::{Answer, Gathered, Shown, Stretch};
pub use picture::Picture;
pub use pool::Pool;
pub use refusal::Refusal;
pub use shape::{pool_length, storage_length, Shape, BUFFER_LENGTH};
pub use slip::{NotASlip, Slip};
pub use svg::Svg;
pub use wire::gather;
