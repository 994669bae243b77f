//! State vectors: rows (client, clock) in two slices, and how many rows.
//!
//! ```
//! use izgarmulf::{lent::vectors, ClientID, Refusal};
//! let v = vectors::Rows { clients: &[1, 300], clocks: &[4, 0], count: 2 };
//! let mut buf = [0xEE; 8];
//! assert_eq!(vectors::encode(v, &mut buf, 1), Ok(7));
//! assert_eq!(buf, [0xEE, 0x02, 0x01, 0x04, 0xAC, 0x02, 0x00, 0xEE]);
//! let (mut clients, mut clocks) = ([9; 3], [9; 2]);
//! assert_eq!(vectors::decode(&buf, 1, vectors::Out { clients: &mut clients, clocks: &mut clocks }), Ok((2, 7)));
//! assert_eq!((clients, clocks), ([1, 300, 0], [4, 0]));
//! // a third client into room for two
//! assert_eq!(vectors::set_max(v, ClientID::new(7), 5, vectors::Out { clients: &mut clients, clocks: &mut clocks }), Err(Refusal::Full));
//! assert_eq!((clients, clocks), ([0; 3], [0; 2]));
//! ```
use super::*;
use std::cmp::Ordering;

/// A lent state vector.
#[derive(Debug, Clone, Copy)]
pub struct Rows<'a> {
    /// The client of each row; clients strictly rise.
    pub clients: &'a [u64],
    /// The clock of each row.
    pub clocks: &'a [u32],
    /// How many rows.
    pub count: usize,
}
/// Where a state vector is written: as many rows as the shorter slice has elements.
#[derive(Debug)]
pub struct Out<'a> {
    /// The client of each row.
    pub clients: &'a mut [u64],
    /// The clock of each row.
    pub clocks: &'a mut [u32],
}

/// The clock of a client; absent reads as 0.
pub fn get(t: Rows, client: ClientID) -> Result<u32, Refusal> {
    let r = sys::iz_vector_get(t.clients, t.clocks, t.count, client.get());
    done(r.no).map(|_| r.value)
}
/// The vector with the smaller clock stored; for an absent client the clock itself.
pub fn set_min(t: Rows, client: ClientID, clock: u32, out: Out) -> Result<usize, Refusal> {
    made(sys::iz_vector_set_min(t.clients, t.clocks, t.count, client.get(), clock, out.clients, out.clocks))
}
/// The vector with the larger clock stored; an absent client gets a row, for clock 0 too.
pub fn set_max(t: Rows, client: ClientID, clock: u32, out: Out) -> Result<usize, Refusal> {
    made(sys::iz_vector_set_max(t.clients, t.clocks, t.count, client.get(), clock, out.clients, out.clocks))
}
/// Every client of either vector, with the larger clock.
pub fn merge(a: Rows, b: Rows, out: Out) -> Result<usize, Refusal> {
    made(sys::iz_vector_merge(a.clients, a.clocks, a.count, b.clients, b.clocks, b.count, out.clients, out.clocks))
}
/// The pointwise order, with absent as 0.
pub fn partial_cmp(a: Rows, b: Rows) -> Result<Option<Ordering>, Refusal> {
    let r = sys::iz_vector_partial_cmp(a.clients, a.clocks, a.count, b.clients, b.clocks, b.count);
    done(r.no).map(|_| match r.value { 1 => Some(Ordering::Less), 2 => Some(Ordering::Equal), 3 => Some(Ordering::Greater), _ => None })
}
/// Writes the count, then client and clock of each row; the place past them.
pub fn encode(t: Rows, buf: &mut [u8], at: usize) -> Result<usize, Refusal> {
    let r = sys::iz_vector_encode(t.clients, t.clocks, t.count, buf, at);
    done(r.no).map(|_| r.next)
}
/// The vector at a place: how many rows, and the place past it. A repeated client takes the last clock.
pub fn decode(bytes: &[u8], at: usize, out: Out) -> Result<(usize, usize), Refusal> {
    let r = sys::iz_vector_decode(bytes, at, out.clients, out.clocks);
    done(r.no).map(|_| (r.count, r.next))
}
