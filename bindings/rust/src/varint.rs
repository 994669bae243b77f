//! Numbers of variable length, as lib0, Yjs and yrs write them: seven bits a byte, lowest first, bit 7 set on all but the last.
//!
//! ```
//! use izgarmulf::varint::{self, Cursor, WriteVar};
//! let mut bytes = Vec::new();
//! bytes.write_var(300u32);
//! bytes.write_var(-64i64);
//! assert_eq!(bytes, [0xAC, 0x02, 0xC0, 0x01]);
//! let mut from = Cursor::new(&bytes);
//! assert_eq!(from.read_var::<u32>(), Ok(300));
//! assert_eq!(from.read_var::<i64>(), Ok(-64));
//! assert_eq!(from.read_var::<u8>(), Err(izgarmulf::Refusal::End));
//! // in a lent buffer, at a place: the place past the number, or a refusal and nothing changed
//! let mut lent = [9u8; 3];
//! assert_eq!(varint::write(128u64, &mut lent, 1), Ok(3));
//! assert_eq!(lent, [9, 0x80, 0x01]);
//! assert_eq!(varint::write(128u64, &mut lent, 2), Err(izgarmulf::Refusal::Full));
//! assert_eq!(varint::read::<u64>(&lent, 1), Ok((128, 3)));
//! ```
use crate::{done, sys, Refusal};

mod sealed {
    pub trait Sealed {}
}

/// The most bytes a number takes.
pub const MOST_BYTES: usize = 10;

/// An integer that is read and written as a number of variable length.
pub trait VarInt: sealed::Sealed + Copy {
    /// The number at a place, and the place past it.
    fn read_at(bytes: &[u8], at: usize) -> Result<(Self, usize), Refusal>;
    /// Writes the shortest form at a place; the place past it.
    fn write_at(self, buf: &mut [u8], at: usize) -> Result<usize, Refusal>;
}

/// A signed integer, which can be read and written with its sign kept apart.
pub trait SignedVarInt: VarInt {
    /// The number at a place with its sign, and the place past it.
    fn read_signed_at(bytes: &[u8], at: usize) -> Result<(Signed<Self>, usize), Refusal>;
    /// Writes a number with its sign at a place; the place past it.
    fn write_signed_at(value: Signed<Self>, buf: &mut [u8], at: usize) -> Result<usize, Refusal>;
}

/// A number with its sign kept apart, so that minus zero is not lost.
///
/// ```
/// use izgarmulf::varint::{self, Signed};
/// let mut buf = [0; 1];
/// varint::write_signed(Signed::new(0i32, true), &mut buf, 0).unwrap();
/// assert_eq!(buf, [0x40]);
/// assert_eq!(varint::read_signed::<i32>(&buf, 0), Ok((Signed::new(0, true), 1)));
/// assert_eq!(varint::read::<i32>(&buf, 0), Ok((0, 1)));
/// // a sign that contradicts the value
/// assert_eq!(varint::write_signed(Signed::new(5i32, true), &mut buf, 0), Err(izgarmulf::Refusal::Sign));
/// ```
#[derive(Debug, Clone, Copy, PartialEq, Eq)]
pub struct Signed<T> {
    /// The number, its sign included.
    pub value: T,
    /// The sign that is written: true for minus. Of a number that isn't 0 it must be the number's own.
    pub is_negative: bool,
}
impl<T> Signed<T> {
    /// A number and its sign.
    pub fn new(value: T, is_negative: bool) -> Self {
        Signed { value, is_negative }
    }
}

macro_rules! unsigned {
    ($($t:ident $read:ident $write:ident;)*) => { $(
        impl sealed::Sealed for $t {}
        impl VarInt for $t {
            #[inline]
            fn read_at(bytes: &[u8], at: usize) -> Result<(Self, usize), Refusal> {
                let r = sys::$read(bytes, at);
                done(r.no).map(|_| (r.value as $t, r.next))
            }
            #[inline]
            fn write_at(self, buf: &mut [u8], at: usize) -> Result<usize, Refusal> {
                let r = sys::$write(self, buf, at);
                done(r.no).map(|_| r.next)
            }
        }
    )* };
}
macro_rules! signed {
    ($($t:ident $read:ident $write:ident $read_signed:ident $write_signed:ident;)*) => {
        unsigned! { $($t $read $write;)* }
        $(
            impl SignedVarInt for $t {
                #[inline]
                fn read_signed_at(bytes: &[u8], at: usize) -> Result<(Signed<Self>, usize), Refusal> {
                    let r = sys::$read_signed(bytes, at);
                    done(r.no).map(|_| (Signed::new(r.value as $t, r.is_negative), r.next))
                }
                #[inline]
                fn write_signed_at(s: Signed<Self>, buf: &mut [u8], at: usize) -> Result<usize, Refusal> {
                    let r = sys::$write_signed(s.value, s.is_negative, buf, at);
                    done(r.no).map(|_| r.next)
                }
            }
        )*
    };
}
unsigned! {
    u8 iz_read_u8 iz_write_u8;
    u32 iz_read_u32 iz_write_u32;
    u64 iz_read_u64 iz_write_u64;
    usize iz_read_usize iz_write_usize;
}
signed! {
    i8 iz_read_i8 iz_write_i8 iz_read_signed_i8 iz_write_signed_i8;
    i16 iz_read_i16 iz_write_i16 iz_read_signed_i16 iz_write_signed_i16;
    i32 iz_read_i32 iz_write_i32 iz_read_signed_i32 iz_write_signed_i32;
    i64 iz_read_i64 iz_write_i64 iz_read_signed_i64 iz_write_signed_i64;
    isize iz_read_isize iz_write_isize iz_read_signed_isize iz_write_signed_isize;
}

/// The number at a place, and the place past it.
#[inline]
pub fn read<T: VarInt>(bytes: &[u8], at: usize) -> Result<(T, usize), Refusal> {
    T::read_at(bytes, at)
}

/// Writes the shortest form of a number at a place of a lent buffer; the place past it.
#[inline]
pub fn write<T: VarInt>(value: T, buf: &mut [u8], at: usize) -> Result<usize, Refusal> {
    value.write_at(buf, at)
}

/// As [`read`], with the sign kept apart.
#[inline]
pub fn read_signed<T: SignedVarInt>(bytes: &[u8], at: usize) -> Result<(Signed<T>, usize), Refusal> {
    T::read_signed_at(bytes, at)
}

/// As [`write()`], with the sign kept apart.
#[inline]
pub fn write_signed<T: SignedVarInt>(value: Signed<T>, buf: &mut [u8], at: usize) -> Result<usize, Refusal> {
    T::write_signed_at(value, buf, at)
}

/// How many bytes a number takes.
///
/// ```
/// assert_eq!(izgarmulf::varint::length(16_384), 3);
/// ```
#[inline]
pub fn length(value: u64) -> usize {
    sys::iz_length_u64(value)
}

/// How many bytes a signed number takes.
#[inline]
pub fn signed_length(value: i64) -> usize {
    sys::iz_length_i64(value)
}

/// Bytes and a place in them. A refused read leaves the place as it was.
#[derive(Debug, Clone, Copy, PartialEq, Eq)]
pub struct Cursor<'a> {
    /// The bytes.
    pub buf: &'a [u8],
    /// The place of the next number; it may be past the end.
    pub next: usize,
}
impl<'a> Cursor<'a> {
    /// At the start of these bytes.
    pub fn new(buf: &'a [u8]) -> Self {
        Cursor { buf, next: 0 }
    }
    /// Reads a number and steps past it.
    #[inline]
    pub fn read_var<T: VarInt>(&mut self) -> Result<T, Refusal> {
        let (value, next) = T::read_at(self.buf, self.next)?;
        self.next = next;
        Ok(value)
    }
    /// Reads a number with its sign and steps past it.
    #[inline]
    pub fn read_var_signed<T: SignedVarInt>(&mut self) -> Result<Signed<T>, Refusal> {
        let (value, next) = T::read_signed_at(self.buf, self.next)?;
        self.next = next;
        Ok(value)
    }
}

/// A growing buffer that numbers are added to.
pub trait WriteVar {
    /// Adds a number in its shortest form.
    fn write_var<T: VarInt>(&mut self, value: T);
    /// Adds a number with its sign. Refused, and nothing added, where the sign contradicts the value.
    fn write_var_signed<T: SignedVarInt>(&mut self, value: Signed<T>) -> Result<(), Refusal>;
}
/// Room for any number is made first, and what is not used of it given back.
fn add(to: &mut Vec<u8>, write: impl FnOnce(&mut [u8], usize) -> Result<usize, Refusal>) -> Result<(), Refusal> {
    let at = to.len();
    to.resize(at + MOST_BYTES, 0);
    let end = write(to, at);
    to.truncate(*end.as_ref().unwrap_or(&at));
    end.map(|_| ())
}
impl WriteVar for Vec<u8> {
    #[inline]
    fn write_var<T: VarInt>(&mut self, value: T) {
        add(self, |buf, at| value.write_at(buf, at)).expect("ten bytes hold any number")
    }
    #[inline]
    fn write_var_signed<T: SignedVarInt>(&mut self, value: Signed<T>) -> Result<(), Refusal> {
        add(self, |buf, at| T::write_signed_at(value, buf, at))
    }
}
