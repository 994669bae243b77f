//! Our answer to a case, through the C boundary; `None` for a routine that isn't linked.
use crate::case::*;

pub const LINKED: bool = cfg!(rattle);

#[cfg(not(rattle))]
pub fn answer(_: &Case) -> Option<Answer> { None }
#[cfg(not(rattle))]
pub fn number(_: &Case) -> Option<Num> { None }

#[cfg(rattle)]
pub use linked::{answer, number};
#[cfg(rattle)]
pub mod boundary { include!(concat!(env!("OUT_DIR"), "/boundary.rs")); }
#[cfg(pace)]
pub mod pace { include!(concat!(env!("OUT_DIR"), "/pace.rs")); }

#[cfg(rattle)]
mod linked {
    use super::boundary::*;
    use crate::case::{Op::*, *};

    impl From<Number> for Num { fn from(n: Number) -> Num { Num { no: n.no, value: n.value, some: false, next: n.next } } }
    impl From<Integer> for Num { fn from(n: Integer) -> Num { Num { no: n.no, value: n.value as u64, some: n.is_negative, next: n.next } } }

    #[inline]
    pub fn number(c: &Case) -> Option<Num> {
        let (b, at) = (&c.bytes[..], c.at);
        Some(match c.op {
            Read(Int::U8) => iz_read_u8(b, at).into(),
            Read(Int::U32) => iz_read_u32(b, at).into(),
            Read(Int::U64) => iz_read_u64(b, at).into(),
            Read(Int::Usize) => iz_read_usize(b, at).into(),
            Read(Int::I8) => iz_read_i8(b, at).into(),
            Read(Int::I16) => iz_read_i16(b, at).into(),
            Read(Int::I32) => iz_read_i32(b, at).into(),
            Read(Int::I64) => iz_read_i64(b, at).into(),
            Read(Int::Isize) => iz_read_isize(b, at).into(),
            ReadSigned(Int::I8) => iz_read_signed_i8(b, at).into(),
            ReadSigned(Int::I16) => iz_read_signed_i16(b, at).into(),
            ReadSigned(Int::I32) => iz_read_signed_i32(b, at).into(),
            ReadSigned(Int::I64) => iz_read_signed_i64(b, at).into(),
            ReadSigned(Int::Isize) => iz_read_signed_isize(b, at).into(),
            _ => unreachable!(),
        })
    }

    fn write(c: &Case) -> Answer {
        let (i, minus, at) = (c.int, c.flag, c.at);
        let mut bytes = c.bytes.clone();
        let b = &mut bytes[..];
        let p = match c.op {
            Write(Int::U8) => iz_write_u8(i as u8, b, at),
            Write(Int::U32) => iz_write_u32(i as u32, b, at),
            Write(Int::U64) => iz_write_u64(i as u64, b, at),
            Write(Int::Usize) => iz_write_usize(i as usize, b, at),
            Write(Int::I8) => iz_write_i8(i as i8, b, at),
            Write(Int::I16) => iz_write_i16(i as i16, b, at),
            Write(Int::I32) => iz_write_i32(i as i32, b, at),
            Write(Int::I64) => iz_write_i64(i as i64, b, at),
            Write(Int::Isize) => iz_write_isize(i as isize, b, at),
            WriteSigned(Int::I8) => iz_write_signed_i8(i as i8, minus, b, at),
            WriteSigned(Int::I16) => iz_write_signed_i16(i as i16, minus, b, at),
            WriteSigned(Int::I32) => iz_write_signed_i32(i as i32, minus, b, at),
            WriteSigned(Int::I64) => iz_write_signed_i64(i as i64, minus, b, at),
            WriteSigned(Int::Isize) => iz_write_signed_isize(i as isize, minus, b, at),
            _ => unreachable!(),
        };
        Answer { no: p.no, next: p.next, bytes, ..Answer::default() }
    }

    fn told(r: Told) -> Answer { Answer { no: r.no, some: r.value, ..Answer::default() } }
    fn counted(r: Counted) -> Answer { Answer { no: r.no, value: r.value as u64, ..Answer::default() } }
    fn place(r: Place) -> Answer { Answer { no: r.no, some: r.some, value: r.value as u64, ..Answer::default() } }
    fn edge(r: Edge) -> Answer { Answer { no: r.no, some: r.some, value: r.value as u64, ..Answer::default() } }
    fn found(r: Found) -> Answer { Answer { no: r.no, some: r.some, value: r.start as u64, second: r.end as u64, ..Answer::default() } }

    /// The output with every element of its slices, and the count.
    fn table(c: &Case, f: impl FnOnce(&mut Table) -> Made) -> Answer {
        let mut out = c.out.clone();
        let r = f(&mut out);
        out.n = r.count;
        Answer { no: r.no, out, ..Answer::default() }
    }

    fn ranges(c: &Case) -> Answer {
        let (t, n, b, m) = (&c.a.ints[..], c.a.n, &c.b.ints[..], c.b.n);
        let clock = c.start as u32;
        match c.op {
            Contains => told(iz_ranges_contains_clock(t, n, clock)),
            FindStart => place(iz_ranges_find_start(t, n, clock)),
            ClockStart => edge(iz_ranges_clock_start(t, n)),
            ClockEnd => edge(iz_ranges_clock_end(t, n)),
            Len => counted(iz_ranges_len(t, n)),
            IsEmpty => told(iz_ranges_is_empty(t, n)),
            Get => found(iz_ranges_get(t, n, c.start as usize)),
            Insert => table(c, |o| iz_ranges_insert(t, n, clock, c.end, &mut o.ints)),
            Remove => table(c, |o| iz_ranges_remove(t, n, clock, c.end, &mut o.ints)),
            Merge => table(c, |o| iz_ranges_merge(t, n, b, m, &mut o.ints)),
            Exclude => table(c, |o| iz_ranges_exclude(t, n, b, m, &mut o.ints)),
            Intersect => table(c, |o| iz_ranges_intersect(t, n, b, m, &mut o.ints)),
            FromRanges => table(c, |o| iz_ranges_from_ranges(t, n, &mut o.ints)),
            _ => unreachable!(),
        }
    }

    fn ids(c: &Case) -> Answer {
        let (a, b) = (&c.a, &c.b);
        let (x, y, z, n) = (&a.longs[..], &a.ints[..], &a.more[..], a.n);
        let (p, q, r, m) = (&b.longs[..], &b.ints[..], &b.more[..], b.n);
        let clock = c.start as u32;
        match c.op {
            IdInsert => table(c, |o| iz_ids_insert_range(x, y, z, n, c.client, clock, c.end, &mut o.longs, &mut o.ints, &mut o.more)),
            IdContains => told(iz_ids_contains(x, y, z, n, c.client, clock)),
            IdMerge => table(c, |o| iz_ids_merge(x, y, z, n, p, q, r, m, &mut o.longs, &mut o.ints, &mut o.more)),
            IdDiff => table(c, |o| iz_ids_diff(x, y, z, n, p, q, r, m, &mut o.longs, &mut o.ints, &mut o.more)),
            IdIntersect => table(c, |o| iz_ids_intersect(x, y, z, n, p, q, r, m, &mut o.longs, &mut o.ints, &mut o.more)),
            IdIsEmpty => told(iz_ids_is_empty(x, y, z, n)),
            IdLen => counted(iz_ids_len(x, y, z, n)),
            IdCapture => table(c, |o| iz_ids_capture(x, y, z, n, &mut o.longs, &mut o.ints, &mut o.more)),
            _ => unreachable!(),
        }
    }

    fn vectors(c: &Case) -> Answer {
        let (a, b) = (&c.a, &c.b);
        let (x, y, n) = (&a.longs[..], &a.ints[..], a.n);
        let clock = c.start as u32;
        match c.op {
            VecGet => { let r = iz_vector_get(x, y, n, c.client); Answer { no: r.no, value: r.value as u64, ..Answer::default() } }
            VecSetMin => table(c, |o| iz_vector_set_min(x, y, n, c.client, clock, &mut o.longs, &mut o.ints)),
            VecSetMax => table(c, |o| iz_vector_set_max(x, y, n, c.client, clock, &mut o.longs, &mut o.ints)),
            VecMerge => table(c, |o| iz_vector_merge(x, y, n, &b.longs, &b.ints, b.n, &mut o.longs, &mut o.ints)),
            VecCompare => { let r = iz_vector_partial_cmp(x, y, n, &b.longs, &b.ints, b.n); Answer { no: r.no, value: r.value as u64, ..Answer::default() } }
            VecEncode => { let mut bytes = c.bytes.clone(); let r = iz_vector_encode(x, y, n, &mut bytes, c.at); Answer { no: r.no, next: r.next, bytes, ..Answer::default() } }
            VecDecode => {
                let mut out = c.out.clone();
                let r = iz_vector_decode(&c.bytes, c.at, &mut out.longs, &mut out.ints);
                out.n = r.count;
                Answer { no: r.no, next: r.next, out, ..Answer::default() }
            }
            _ => unreachable!(),
        }
    }

    pub fn answer(c: &Case) -> Option<Answer> {
        match c.op {
            Read(_) | ReadSigned(_) => number(c).map(|n| n.into()),
            Write(_) | WriteSigned(_) => Some(write(c)),
            o if o.kind() == Kind::Range => Some(ranges(c)),
            o if o.kind() == Kind::Id => Some(ids(c)),
            _ => Some(vectors(c)),
        }
    }
}
