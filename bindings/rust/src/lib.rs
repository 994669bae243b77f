//! Clock tables, state vectors and their numbers for a shared editor: safe Rust over a library that is proved to meet its promises.
//!
//! The names are those of yrs. Where yrs grows a table without bound, this library has a limit and says [`Refusal::Full`]; no input panics.
//!
//! | yrs | here |
//! |---|---|
//! | `IdRanges<()>`, the clocks of one client | [`IdRanges`]; edits give a `Result` |
//! | `IdMapInner<()>`, ranges per client | [`IdTable`]; `diff`, `merge` and `intersect` give a new table, as there |
//! | `StateVector` | [`StateVector`]; at most [`VECTOR_LIMIT`] clients, and its bytes have the clients rising |
//! | `ClientID`, `ID` | [`ClientID`], which keeps all 64 bits, and [`ID`] |
//! | `read_var`, `write_var`, `Signed` | [`varint`] |
//! | `Error::EndOfBuffer`, `Error::InvalidVarInt` | [`Refusal::End`]; [`Refusal::Long`] and [`Refusal::Range`] |
//! | | [`lent`]: the same operations on the caller's slices, with no allocation |
//!
//! ```
//! use izgarmulf::{ClientID, IdTable, StateVector};
//! # fn main() -> Result<(), izgarmulf::Refusal> {
//! // two desks strike out what they see fit, and one hears of the other's
//! let (ada, ben) = (ClientID::new(11), ClientID::new(12));
//! let (mut one, mut two) = (IdTable::new(), IdTable::new());
//! one.insert_range(ada, 0..4)?;
//! two.insert_range(ada, 4..6)?;
//! two.insert_range(ben, 8..10)?;
//! one = one.merge(&two.capture()?)?;
//! assert_eq!(format!("{one:?}"), "[11: 0..6, 12: 8..10]");
//! // what the other has not heard of yet
//! assert_eq!(format!("{:?}", one.diff(&two)?), "[11: 0..4]");
//! // what a desk has seen, as bytes
//! let seen = StateVector::from_rows([(ada, 6), (ben, 10)])?;
//! assert_eq!(seen.encode(), [2, 11, 6, 12, 10]);
//! # Ok(()) }
//! ```
#![warn(missing_docs)]
#![allow(clippy::len_without_is_empty)]

use std::fmt;

#[allow(dead_code, clippy::all)]
mod sys {
    include!(concat!(env!("OUT_DIR"), "/boundary.rs"));
}

mod ids;
pub mod lent;
mod state_vector;
pub mod varint;

pub use ids::{IdRanges, IdTable};
pub use state_vector::StateVector;

/// The most rows of a range table and of an id table.
pub const ROW_LIMIT: usize = 1024;
/// The most rows of a state vector.
pub const VECTOR_LIMIT: usize = 256;

/// A client number: any 64 bits. No clock can be passed for one.
#[derive(Debug, Clone, Copy, PartialEq, Eq, PartialOrd, Ord, Hash)]
pub struct ClientID(u64);
impl ClientID {
    /// The client of this number.
    pub const fn new(number: u64) -> Self {
        ClientID(number)
    }
    /// Its number.
    pub const fn get(self) -> u64 {
        self.0
    }
}

/// A client and one of its clocks.
#[derive(Debug, Clone, Copy, PartialEq, Eq, PartialOrd, Ord, Hash)]
pub struct ID {
    /// Whose clock it is.
    pub client: ClientID,
    /// The clock.
    pub clock: u32,
}
impl ID {
    /// The id of a client's clock.
    pub const fn new(client: ClientID, clock: u32) -> Self {
        ID { client, clock }
    }
}

/// Why a call was refused. The numbers are those of the C boundary, where 0 is done.
#[derive(Debug, Clone, Copy, PartialEq, Eq, PartialOrd, Ord, Hash)]
#[repr(u32)]
pub enum Refusal {
    /// The bytes end before a number or vector is complete, or the place is past the end.
    End = 1,
    /// A number goes on too long.
    Long = 2,
    /// A number was read whole and doesn't fit its narrow width.
    Range = 3,
    /// The right result has more rows than the output or the limit holds, or more bytes than remain.
    Full = 4,
    /// An input table breaks its rules.
    Malformed = 5,
    /// A value above 0 is flagged negative, or one below 0 is not.
    Sign = 6,
}
impl fmt::Display for Refusal {
    fn fmt(&self, f: &mut fmt::Formatter<'_>) -> fmt::Result {
        f.write_str(match self {
            Refusal::End => "the bytes end too soon",
            Refusal::Long => "a number goes on too long",
            Refusal::Range => "a number doesn't fit its width",
            Refusal::Full => "there is not enough room for the result",
            Refusal::Malformed => "a table breaks its rules",
            Refusal::Sign => "a number's sign contradicts its value",
        })
    }
}
impl std::error::Error for Refusal {}

/// The boundary's number of an answer as a result.
#[inline]
fn done(no: u32) -> Result<(), Refusal> {
    Err(match no {
        0 => return Ok(()),
        1 => Refusal::End,
        2 => Refusal::Long,
        3 => Refusal::Range,
        4 => Refusal::Full,
        6 => Refusal::Sign,
        _ => Refusal::Malformed,
    })
}
