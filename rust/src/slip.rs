//! A slip's name: its number and its serial.

use std::error::Error;
use std::fmt;
use std::str::FromStr;

/// A slip: the caller's one name for a chain, by the slip's number and its serial.
///
/// A number is given again, a name never, until another open: [`Pool::free`](crate::Pool::free)
/// and, for the second slip, [`Pool::append`](crate::Pool::append) count the serial up, so that the
/// old name is refused with [`Refusal::Slip`](crate::Refusal::Slip). A vacant slip whose serial has
/// come to 65,535 is spent: it is not given again until an open, which sets every serial to 0.
///
/// It is printed, and read, as its number alone where the serial is 0, and else as number, point
/// and serial:
///
/// ```
/// use fulcrumnest::{NotASlip, Slip};
///
/// assert_eq!(Slip::new(2, 0).to_string(), "2");
/// assert_eq!(Slip::new(2, 1).to_string(), "2.1");
/// assert_eq!("2.1".parse(), Ok(Slip::new(2, 1)));
/// assert_eq!("2".parse(), Ok(Slip::new(2, 0)));
/// assert_eq!("2.".parse::<Slip>(), Err(NotASlip));
/// ```
#[derive(Clone, Copy, Debug, PartialEq, Eq, PartialOrd, Ord, Hash)]
pub struct Slip {
    /// Which slip of the pool it is, from 0 on.
    pub number: u16,
    /// How often the slip was given up before it was given under this name.
    pub serial: u16,
}

impl Slip {
    /// The last serial: at it a slip that is vacant is spent.
    pub const LAST_SERIAL: u16 = u16::MAX;

    /// The slip of this number and serial.
    pub const fn new(number: u16, serial: u16) -> Slip {
        Slip { number, serial }
    }

    /// The slip that put, dup or cut answers with this number.
    ///
    /// ```
    /// use fulcrumnest::Slip;
    ///
    /// assert_eq!(Slip::from_answer(3 + 65_536 * 7), Slip::new(3, 7));
    /// ```
    pub const fn from_answer(n: u32) -> Slip {
        Slip::new((n % 65_536) as u16, (n / 65_536) as u16)
    }

    /// The number that is answered for this slip: its own, and 65,536 times its serial.
    ///
    /// ```
    /// use fulcrumnest::Slip;
    ///
    /// assert_eq!(Slip::new(3, 7).answer(), 3 + 65_536 * 7);
    /// ```
    pub const fn answer(self) -> u32 {
        self.number as u32 + 65_536 * self.serial as u32
    }
}

impl fmt::Display for Slip {
    fn fmt(&self, f: &mut fmt::Formatter<'_>) -> fmt::Result {
        match self.serial {
            0 => write!(f, "{}", self.number),
            serial => write!(f, "{}.{serial}", self.number),
        }
    }
}

/// What is said of a text that names no slip.
#[derive(Clone, Copy, Debug, PartialEq, Eq)]
pub struct NotASlip;

impl fmt::Display for NotASlip {
    fn fmt(&self, f: &mut fmt::Formatter<'_>) -> fmt::Result {
        write!(f, "not a slip: NUMBER or NUMBER.SERIAL, each 0 to 65535")
    }
}

impl Error for NotASlip {}

impl FromStr for Slip {
    type Err = NotASlip;

    fn from_str(text: &str) -> Result<Slip, NotASlip> {
        match text.split_once('.') {
            Some((number, serial)) => Ok(Slip::new(decimal(number)?, decimal(serial)?)),
            None => Ok(Slip::new(decimal(text)?, 0)),
        }
    }
}

/// A number of 16 bits in decimal digits alone: parse itself would take a sign.
fn decimal(text: &str) -> Result<u16, NotASlip> {
    match text.bytes().all(|byte| byte.is_ascii_digit()) {
        true => text.parse().map_err(|_| NotASlip),
        false => Err(NotASlip),
    }
}
