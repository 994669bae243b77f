//! The operations on lent buffers: every table is a count and slices of the caller, and nothing is allocated.
//!
//! On success the new table fills the front of the output and every later element is zero. On refusal every element of the output is zero.
//! Any slices and any counts may be given: a table that breaks its rules is refused with [`Refusal::Malformed`].
//!
//! ```
//! use izgarmulf::{lent, Refusal};
//! let mut out = [7; 5];
//! // [0..3, 8..9] and [3..8]
//! assert_eq!(lent::ranges::merge(&[0, 3, 8, 9], 2, &[3, 8], 1, &mut out), Ok(1));
//! assert_eq!(out, [0, 9, 0, 0, 0]);
//! // rows that touch are no table
//! assert_eq!(lent::ranges::len(&[2, 5, 5, 7], 2), Err(Refusal::Malformed));
//! // two rows into room for one
//! assert_eq!(lent::ranges::insert(&[2, 5], 1, 7..9, &mut out[..3]), Err(Refusal::Full));
//! assert_eq!(out, [0; 5]);
//! ```
use crate::{done, sys, ClientID, Refusal};
use std::ops::Range;

fn made(r: sys::Made) -> Result<usize, Refusal> {
    done(r.no).map(|_| r.count)
}
fn told(r: sys::Told) -> Result<bool, Refusal> {
    done(r.no).map(|_| r.value)
}
fn counted(r: sys::Counted) -> Result<usize, Refusal> {
    done(r.no).map(|_| r.value)
}

/// Range tables: rows start, end, start, end in one slice, and how many rows.
pub mod ranges {
    use super::*;

    /// Whether a clock is in the table.
    pub fn contains_clock(t: &[u32], n: usize, clock: u32) -> Result<bool, Refusal> {
        told(sys::iz_ranges_contains_clock(t, n, clock))
    }
    /// The first row whose end exceeds the clock.
    pub fn find_start(t: &[u32], n: usize, clock: u32) -> Result<Option<usize>, Refusal> {
        let r = sys::iz_ranges_find_start(t, n, clock);
        done(r.no).map(|_| r.some.then_some(r.value))
    }
    /// The first start.
    pub fn clock_start(t: &[u32], n: usize) -> Result<Option<u32>, Refusal> {
        let r = sys::iz_ranges_clock_start(t, n);
        done(r.no).map(|_| r.some.then_some(r.value))
    }
    /// The last end.
    pub fn clock_end(t: &[u32], n: usize) -> Result<Option<u32>, Refusal> {
        let r = sys::iz_ranges_clock_end(t, n);
        done(r.no).map(|_| r.some.then_some(r.value))
    }
    /// How many rows.
    pub fn len(t: &[u32], n: usize) -> Result<usize, Refusal> {
        counted(sys::iz_ranges_len(t, n))
    }
    /// Whether there is no row.
    pub fn is_empty(t: &[u32], n: usize) -> Result<bool, Refusal> {
        told(sys::iz_ranges_is_empty(t, n))
    }
    /// The row at an index.
    pub fn get(t: &[u32], n: usize, index: usize) -> Result<Option<Range<u32>>, Refusal> {
        let r = sys::iz_ranges_get(t, n, index);
        done(r.no).map(|_| r.some.then_some(r.start..r.end))
    }
    /// The table with a range put in; an empty range changes nothing.
    pub fn insert(t: &[u32], n: usize, range: Range<u32>, out: &mut [u32]) -> Result<usize, Refusal> {
        made(sys::iz_ranges_insert(t, n, range.start, range.end, out))
    }
    /// The table with a range taken out.
    pub fn remove(t: &[u32], n: usize, range: Range<u32>, out: &mut [u32]) -> Result<usize, Refusal> {
        made(sys::iz_ranges_remove(t, n, range.start, range.end, out))
    }
    /// The clocks of either table.
    pub fn merge(a: &[u32], n: usize, b: &[u32], m: usize, out: &mut [u32]) -> Result<usize, Refusal> {
        made(sys::iz_ranges_merge(a, n, b, m, out))
    }
    /// The clocks of the first table that are not in the second.
    pub fn exclude(a: &[u32], n: usize, b: &[u32], m: usize, out: &mut [u32]) -> Result<usize, Refusal> {
        made(sys::iz_ranges_exclude(a, n, b, m, out))
    }
    /// The clocks of both tables.
    pub fn intersect(a: &[u32], n: usize, b: &[u32], m: usize, out: &mut [u32]) -> Result<usize, Refusal> {
        made(sys::iz_ranges_intersect(a, n, b, m, out))
    }
    /// The table of the first n start, end pairs of a slice, put in one after the other; empty ranges are allowed.
    pub fn from_ranges(list: &[u32], n: usize, out: &mut [u32]) -> Result<usize, Refusal> {
        made(sys::iz_ranges_from_ranges(list, n, out))
    }
}

/// Id tables: rows (client, start, end) in three slices, and how many rows.
///
/// ```
/// use izgarmulf::{lent::ids, Refusal};
/// let a = ids::Rows { clients: &[1, 2], starts: &[0, 0], ends: &[3, 4], count: 2 };
/// let b = ids::Rows { clients: &[1], starts: &[3], ends: &[8], count: 1 };
/// let (mut clients, mut starts, mut ends) = ([9; 3], [9; 3], [9; 3]);
/// assert_eq!(ids::merge(a, b, ids::Out { clients: &mut clients, starts: &mut starts, ends: &mut ends }), Ok(2));
/// assert_eq!((clients, starts, ends), ([1, 2, 0], [0, 0, 0], [8, 4, 0]));
/// // a count above the length of one slice
/// assert_eq!(ids::len(ids::Rows { starts: &[0], ..a }), Err(Refusal::Malformed));
/// // the shortest output slice says how many rows there is room for
/// assert_eq!(ids::capture(a, ids::Out { clients: &mut clients, starts: &mut starts, ends: &mut ends[..1] }), Err(Refusal::Full));
/// assert_eq!((clients, starts, ends), ([0; 3], [0; 3], [0, 4, 0]));
/// ```
pub mod ids {
    use super::*;

    /// A lent id table.
    #[derive(Debug, Clone, Copy)]
    pub struct Rows<'a> {
        /// The client of each row; clients never fall.
        pub clients: &'a [u64],
        /// The start of each row.
        pub starts: &'a [u32],
        /// The end of each row.
        pub ends: &'a [u32],
        /// How many rows.
        pub count: usize,
    }
    /// Where an id table is written: as many rows as the shortest slice has elements.
    #[derive(Debug)]
    pub struct Out<'a> {
        /// The client of each row.
        pub clients: &'a mut [u64],
        /// The start of each row.
        pub starts: &'a mut [u32],
        /// The end of each row.
        pub ends: &'a mut [u32],
    }

    /// The table with a client's range put in; an empty range changes nothing.
    pub fn insert_range(t: Rows, client: ClientID, range: Range<u32>, out: Out) -> Result<usize, Refusal> {
        made(sys::iz_ids_insert_range(t.clients, t.starts, t.ends, t.count, client.get(), range.start, range.end, out.clients, out.starts, out.ends))
    }
    /// Whether an id is in the table.
    pub fn contains(t: Rows, client: ClientID, clock: u32) -> Result<bool, Refusal> {
        told(sys::iz_ids_contains(t.clients, t.starts, t.ends, t.count, client.get(), clock))
    }
    /// The ids of either table.
    pub fn merge(a: Rows, b: Rows, out: Out) -> Result<usize, Refusal> {
        made(sys::iz_ids_merge(a.clients, a.starts, a.ends, a.count, b.clients, b.starts, b.ends, b.count, out.clients, out.starts, out.ends))
    }
    /// The ids of the first table that are not in the second.
    pub fn diff(a: Rows, b: Rows, out: Out) -> Result<usize, Refusal> {
        made(sys::iz_ids_diff(a.clients, a.starts, a.ends, a.count, b.clients, b.starts, b.ends, b.count, out.clients, out.starts, out.ends))
    }
    /// The ids of both tables.
    pub fn intersect(a: Rows, b: Rows, out: Out) -> Result<usize, Refusal> {
        made(sys::iz_ids_intersect(a.clients, a.starts, a.ends, a.count, b.clients, b.starts, b.ends, b.count, out.clients, out.starts, out.ends))
    }
    /// An unchanged copy.
    pub fn capture(t: Rows, out: Out) -> Result<usize, Refusal> {
        made(sys::iz_ids_capture(t.clients, t.starts, t.ends, t.count, out.clients, out.starts, out.ends))
    }
    /// Whether there is no row.
    pub fn is_empty(t: Rows) -> Result<bool, Refusal> {
        told(sys::iz_ids_is_empty(t.clients, t.starts, t.ends, t.count))
    }
    /// How many clients.
    pub fn len(t: Rows) -> Result<usize, Refusal> {
        counted(sys::iz_ids_len(t.clients, t.starts, t.ends, t.count))
    }
}

pub mod vectors;
