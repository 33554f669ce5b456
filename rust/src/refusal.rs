//! Why a call says no.

use std::error::Error;
use std::fmt;

use crate::ffi::{Answer, Gathered, Shown};

/// Makes the enum of refusals, and all that goes by its rows, from the one table of codes. A row is
/// a text for the documentation, then the variant, its code, the code's word and its meaning.
macro_rules! codes {
    (
        $(#[$about:meta])*
        pub enum $refusal:ident {
            $($(#[$text:meta])+ $variant:ident = $code:literal, $word:literal, $meaning:literal;)+
        }
    ) => {
        $(#[$about])*
        pub enum $refusal {
            $($(#[$text])+ $variant = $code,)+
        }

        impl $refusal {
            /// Every refusal, by rising code.
            pub const ALL: &'static [$refusal] = &[$($refusal::$variant),+];

            /// The code's word.
            pub const fn word(self) -> &'static str {
                match self {
                    $($refusal::$variant => $word,)+
                }
            }

            /// When exactly it is given.
            pub const fn meaning(self) -> &'static str {
                match self {
                    $($refusal::$variant => $meaning,)+
                }
            }
        }
    };
}

codes! {
    /// Why a call was refused. A refused call has changed nothing: not the pool, not storage, and
    /// nothing of an output, a scratch or a list.
    ///
    /// Where several apply, the first of this list is given. It is printed with its code, its word
    /// and its meaning:
    ///
    /// ```
    /// use fulcrumnest::Refusal;
    ///
    /// let text = Refusal::Buffers.to_string();
    /// assert_eq!(text, "10 BUFFERS: more new buffers wanted than free");
    /// ```
    #[derive(Clone, Copy, Debug, PartialEq, Eq, PartialOrd, Ord, Hash)]
    #[non_exhaustive]
    #[repr(u16)]
    pub enum Refusal {
        /// open: a count outside its range, or a lent length not the one it asks.
        Counts = 1, "COUNTS",
            "open: a count outside its range, or a lent length not the one it asks";
        /// Any other call that has a pool: the pool isn't sound.
        Torn = 2, "TORN",
            "the pool isn't sound";
        /// A named slip is S or more (S: how many slips the pool has), or vacant, or its serial is
        /// another: the name of a slip that was given up.
        Slip = 3, "SLIP",
            "a named slip is S or more, or vacant, or its serial is another";
        /// append names one slip twice.
        Same = 4, "SAME",
            "append names one slip twice";
        /// pullup or show asks more than 512 bytes.
        Long = 5, "LONG",
            "pullup or show asks more than 512";
        /// The asked bytes reach past the chain's end; offset and length are added as whole
        /// numbers.
        Range = 6, "RANGE",
            "the asked bytes reach past the chain's end, as whole numbers";
        /// The lent output or scratch can't take the bytes to be copied, or the lent list the
        /// records.
        Narrow = 7, "NARROW",
            "the lent output, scratch or list can't take the bytes or records";
        /// A new slip is wanted and none is vacant but spent ones, those at serial 65,535.
        Slips = 8, "SLIPS",
            "a new slip is wanted and none is vacant but spent ones";
        /// More new pieces are wanted than free; to drop and pullup those are free too that they
        /// give back first.
        Pieces = 9, "PIECES",
            "more new pieces wanted than free";
        /// More new buffers are wanted than free.
        Buffers = 10, "BUFFERS",
            "more new buffers wanted than free";
        /// gather: a record is of no length or leaves storage; position and length are added as
        /// whole numbers.
        List = 11, "LIST",
            "gather: a record is of no length or leaves storage, as whole numbers";
    }
}

impl Refusal {
    /// The refusal of this code; none for 0, which is done, and for codes that no call gives.
    ///
    /// ```
    /// use fulcrumnest::Refusal;
    ///
    /// assert_eq!(Refusal::from_code(3), Some(Refusal::Slip));
    /// assert_eq!(Refusal::from_code(0), None);
    /// ```
    pub fn from_code(code: u16) -> Option<Refusal> {
        Refusal::ALL.iter().copied().find(|no| no.code() == code)
    }

    /// The code, as C receives it.
    pub const fn code(self) -> u16 {
        self as u16
    }
}

impl fmt::Display for Refusal {
    fn fmt(&self, f: &mut fmt::Formatter<'_>) -> fmt::Result {
        write!(f, "{} {}: {}", self.code(), self.word(), self.meaning())
    }
}

impl Error for Refusal {}

/// The number that comes with code 0, or the refusal.
fn result<N>(code: u16, number: N) -> Result<N, Refusal> {
    match code {
        0 => Ok(number),
        no => Err(Refusal::from_code(no).unwrap_or_else(|| panic!("{no} is no call's code"))),
    }
}

impl Answer {
    /// The number of a done call, or the refusal.
    ///
    /// # Panics
    ///
    /// Where the code is one that no call gives.
    pub fn result(self) -> Result<u32, Refusal> {
        result(self.code, self.number)
    }
}

impl Gathered {
    /// The byte count of a done gather, or the refusal.
    ///
    /// # Panics
    ///
    /// Where the code is one that no call gives.
    pub fn result(self) -> Result<u64, Refusal> {
        result(self.code, self.number)
    }
}

impl Shown {
    /// The byte count of a done show, or the refusal.
    ///
    /// # Panics
    ///
    /// Where the code is one that no call gives.
    pub fn result(self) -> Result<u32, Refusal> {
        result(self.code, self.number)
    }

    /// The view itself: a part of storage or a part of the scratch, the ones lent to the call.
    ///
    /// # Panics
    ///
    /// Where the slice is too short to be the one that was lent.
    pub fn view<'a>(&self, storage: &'a [u8], scratch: &'a [u8]) -> &'a [u8] {
        let lent = if self.in_scratch == 1 {
            scratch
        } else {
            storage
        };
        &lent[self.start as usize..][..self.number as usize]
    }
}
