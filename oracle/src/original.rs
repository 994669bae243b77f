//! The original's answer to a case: the one place that calls yrs. `None` where the call is outside
//! the comparison: it is refused for a reason that the original doesn't have (MALFORMED, SIGN), or it
//! falls under a difference listed in docs/DIFFERENCES.md. FULL is found by counting what the
//! original gives.
use crate::block::{ClientID, ID};
use crate::case::{Op::*, *};
use crate::encoding::read::{Cursor, Error, Read as _};
use crate::encoding::varint::{Signed, SignedVarInt, VarInt};
use crate::encoding::write::Write as _;
use crate::id_set::IdRange;
use crate::ids::{IdMapInner, IdRanges};
use crate::model;
use crate::state_vector::StateVector;
use crate::updates::decoder::{Decode, Decoder, DecoderV1};
use crate::updates::encoder::Encode;

/// ClientID keeps 53 bits; the rules ask for clients below 2^32, and the comparison goes on to here.
pub const CLIENTS: u64 = 1 << 53;
/// The original reserves room for as many clients as are declared: never more than this here.
pub const MOST_DECLARED: u32 = 1 << 16;

fn failed(e: Error, at: usize) -> Num {
    Num::refused(match e { Error::EndOfBuffer(_) => END, Error::InvalidVarInt => LONG_OR_RANGE, e => panic!("{e:?}") }, at)
}
#[inline]
fn read<T: VarInt>(c: &Case, wide: impl Fn(T) -> u64) -> Num {
    let mut r = Cursor { buf: &c.bytes, next: c.at };
    match r.read_var::<T>() { Ok(v) => Num { no: DONE, value: wide(v), some: false, next: r.next }, Err(e) => failed(e, c.at) }
}
#[inline]
fn read_signed<T: SignedVarInt>(c: &Case, wide: impl Fn(T) -> u64) -> Num {
    let mut r = Cursor { buf: &c.bytes, next: c.at };
    match r.read_var_signed::<T>() { Ok(v) => Num { no: DONE, value: wide(v.value()), some: v.is_negative(), next: r.next }, Err(e) => failed(e, c.at) }
}
/// The original's writers have a growing buffer: what they give is laid into the lent one.
fn put(new: &[u8], c: &Case) -> Answer {
    let mut bytes = c.bytes.clone();
    match c.at.checked_add(new.len()) {
        Some(end) if end <= bytes.len() => { bytes[c.at..end].copy_from_slice(new); Answer { next: end, bytes, ..Answer::default() } }
        _ => Answer { no: FULL, next: c.at, bytes, ..Answer::default() },
    }
}
pub fn written<T: VarInt>(v: T) -> Vec<u8> { let mut w = Vec::new(); w.write_var(v); w }
pub fn written_signed<T: SignedVarInt>(v: T, minus: bool) -> Vec<u8> { let mut w = Vec::new(); w.write_var_signed(&Signed::new(v, minus)); w }

/// Ten continued bytes and an eleventh that ends the number: the original shifts by 69.
fn shifted_by_69(b: &[u8], at: usize) -> bool { b.len() > at && b.len() - at > 10 && b[at..at + 10].iter().all(|x| *x >= 128) && b[at + 10] < 128 }

pub fn table(rows: &[(u64, u32, u32)]) -> IdRange { IdRanges::from_raw(rows.iter().map(|&(_, s, e)| (s..e, ())).collect()) }
pub fn rows(t: &IdRange) -> model::Rows { t.iter().map(|(r, _)| (0, r.start, r.end)).collect() }

pub(crate) fn ids(rows: &[(u64, u32, u32)]) -> IdMapInner<()> {
    let mut m: IdMapInner<()> = IdMapInner::new();
    let mut i = 0;
    while i < rows.len() {
        let j = rows[i..].iter().position(|r| r.0 != rows[i].0).map_or(rows.len(), |k| i + k);
        m.clients_mut().insert(ClientID::new(rows[i].0), table(&rows[i..j]));
        i = j;
    }
    m
}
pub(crate) fn id_rows(m: &IdMapInner<()>) -> model::Rows { m.iter().flat_map(|(c, t)| t.iter().map(move |(r, _)| (c.get(), r.start, r.end))).collect() }

pub fn vector(t: &Table) -> StateVector { (0..t.n).map(|i| (ClientID::new(t.longs[i]), t.ints[i])).collect() }
pub fn vector_rows(v: &StateVector) -> model::Rows { let mut r: model::Rows = v.iter().map(|(c, &k)| (c.get(), k, 0)).collect(); r.sort(); r }
/// The original's bytes with its pairs put in order of their clients.
pub fn sorted(bytes: &[u8]) -> Vec<u8> {
    let mut r = Cursor::new(bytes);
    r.read_var::<usize>().unwrap();
    let head = r.next;
    let mut pairs: Vec<(u64, &[u8])> = vec![];
    while r.next < bytes.len() {
        let from = r.next;
        let c: u64 = r.read_var().unwrap();
        let _: u32 = r.read_var().unwrap();
        pairs.push((c, &bytes[from..r.next]));
    }
    pairs.sort();
    let mut out = bytes[..head].to_vec();
    for p in pairs { out.extend_from_slice(p.1) }
    out
}
/// The vector at a place by the original's own decoder, and the place past it.
pub fn decoded(bytes: &[u8], at: usize) -> Result<(StateVector, usize), Error> {
    let mut d = DecoderV1::new(Cursor { buf: bytes, next: at });
    let v = StateVector::decode(&mut d)?;
    let rest = d.read_to_end()?.len();
    Ok((v, bytes.len() - rest))
}
fn decode(c: &Case) -> Option<Answer> {
    // The original's readers go over the bytes first: is the count small, is each client below 2^53,
    // and is there a pair that needs a row beyond the room?
    let room = model::most(Kind::Vector, &c.out);
    let mut r = Cursor { buf: &c.bytes, next: c.at };
    let mut full = false;
    if let Ok(n) = r.read_var::<u32>() {
        let mut seen = std::collections::HashSet::new();
        for _ in 0..n {
            let (Ok(client), Ok(_)) = (r.read_var::<u64>(), r.read_var::<u32>()) else { break };
            if client >= CLIENTS { return None }
            seen.insert(client);
            if seen.len() > room { full = true; break }
        }
        if full { return Some(Answer { no: FULL, next: c.at, out: model::zeroed(&c.out), ..Answer::default() }) }
        if n > MOST_DECLARED { return None }
    }
    Some(match decoded(&c.bytes, c.at) {
        Ok((v, next)) => Answer { next, ..model::filled(Kind::Vector, &vector_rows(&v), &c.out) },
        Err(e) => Answer { out: model::zeroed(&c.out), ..failed(e, c.at).into() },
    })
}

/// A reader's answer; `None` where the original shifts by 69.
pub fn number(c: &Case) -> Option<Num> {
    match c.op {
        Read(Int::U8) => Some(read::<u8>(c, |v| v as u64)),
        Read(Int::U32) => Some(read::<u32>(c, |v| v as u64)),
        Read(Int::U64) => Some(read::<u64>(c, |v| v)),
        Read(Int::Usize) => Some(read::<usize>(c, |v| v as u64)),
        Read(_) | ReadSigned(_) if shifted_by_69(&c.bytes, c.at) => None,
        Read(Int::I8) => Some(read::<i8>(c, |v| v as u64)),
        Read(Int::I16) => Some(read::<i16>(c, |v| v as u64)),
        Read(Int::I32) => Some(read::<i32>(c, |v| v as u64)),
        Read(Int::I64) => Some(read::<i64>(c, |v| v as u64)),
        Read(Int::Isize) => Some(read::<isize>(c, |v| v as u64)),
        ReadSigned(Int::I8) => Some(read_signed::<i8>(c, |v| v as u64)),
        ReadSigned(Int::I16) => Some(read_signed::<i16>(c, |v| v as u64)),
        ReadSigned(Int::I32) => Some(read_signed::<i32>(c, |v| v as u64)),
        ReadSigned(Int::I64) => Some(read_signed::<i64>(c, |v| v as u64)),
        ReadSigned(Int::Isize) => Some(read_signed::<isize>(c, |v| v as u64)),
        _ => unreachable!(),
    }
}

pub fn answer(c: &Case) -> Option<Answer> {
    let i = c.int;
    match c.op {
        Read(_) | ReadSigned(_) => return number(c).map(|n| n.into()),
        // the original has no bytes for the least i64
        Write(Int::I64 | Int::Isize) | WriteSigned(Int::I64 | Int::Isize) if i == i64::MIN as i128 => return None,
        WriteSigned(_) if i > 0 && c.flag || i < 0 && !c.flag => return None,
        Write(w) => return Some(put(&match w {
            Int::U8 => written(i as u8), Int::U32 => written(i as u32), Int::U64 => written(i as u64), Int::Usize => written(i as usize),
            Int::I8 => written(i as i8), Int::I16 => written(i as i16), Int::I32 => written(i as i32), Int::I64 => written(i as i64), Int::Isize => written(i as isize),
        }, c)),
        WriteSigned(w) => return Some(put(&match w {
            Int::I8 => written_signed(i as i8, c.flag), Int::I16 => written_signed(i as i16, c.flag), Int::I32 => written_signed(i as i32, c.flag),
            Int::I64 => written_signed(i as i64, c.flag), _ => written_signed(i as isize, c.flag),
        }, c)),
        FromRanges => {
            if c.a.n > c.a.ints.len() / 2 { return None }
            let rs = c.a.ints[..2 * c.a.n].chunks(2).map(|p| p[0]..p[1]);
            let whole = rows(&IdRanges::from_ranges(rs.clone()));
            // FULL where the table after some one of them is too long
            let room = model::most(Kind::Range, &c.out);
            let mut t = IdRange::new();
            for r in rs { t.insert(r); if t.len() > room { return Some(Answer { no: FULL, out: model::zeroed(&c.out), ..Answer::default() }) } }
            return Some(model::filled(Kind::Range, &whole, &c.out));
        }
        VecDecode => return decode(c),
        _ => {}
    }
    let yes = |some: bool| Some(Answer { some, ..Answer::default() });
    let count = |value: u64| Some(Answer { value, ..Answer::default() });
    let maybe = |x: Option<u64>| Some(Answer { some: x.is_some(), value: x.unwrap_or(0), ..Answer::default() });
    let kind = c.op.kind();
    let clock = c.start as u32;
    match kind {
        Kind::Range => {
            let ra = model::rows(kind, &c.a)?;
            let mut a = table(&ra);
            let b = if c.op.two_tables() { table(&model::rows(kind, &c.b)?) } else { IdRange::new() };
            match c.op {
                Contains => return yes(a.contains_clock(clock)),
                FindStart => return maybe(a.find_start(clock).map(|i| i as u64)),
                ClockStart => return maybe(a.clock_start().map(|i| i as u64)),
                ClockEnd => return maybe(a.clock_end().map(|i| i as u64)),
                Len => return count(a.len() as u64),
                IsEmpty => return yes(a.is_empty()),
                Get => return Some(a.get(c.start as usize).map_or(Answer::default(), |(r, _)| Answer { some: true, value: r.start as u64, second: r.end as u64, ..Answer::default() })),
                Insert => a.insert(clock..c.end),
                Remove => a.remove(clock..c.end),
                Merge => a.merge(&b),
                Exclude => a.exclude(&b),
                Intersect => a.intersect(&b),
                _ => unreachable!(),
            }
            Some(model::filled(kind, &rows(&a), &c.out))
        }
        Kind::Id => {
            let ra = model::rows(kind, &c.a)?;
            let rb = if c.op.two_tables() { model::rows(kind, &c.b)? } else { vec![] };
            if c.client >= CLIENTS || ra.iter().chain(&rb).any(|r| r.0 >= CLIENTS) { return None }
            let (mut a, b) = (ids(&ra), ids(&rb));
            let r = match c.op {
                IdContains => return yes(a.contains(&ID::new(ClientID::new(c.client), clock))),
                IdIsEmpty => return yes(a.is_empty()),
                IdLen => return count(a.len() as u64),
                IdInsert => { a.insert_range(ClientID::new(c.client), clock..c.end, ()); a }
                IdMerge => a.merge(&b),
                IdDiff => a.diff(&b),
                IdIntersect => a.intersect(&b),
                IdCapture => a.clone(),
                _ => unreachable!(),
            };
            Some(model::filled(kind, &id_rows(&r), &c.out))
        }
        _ => {
            let ra = model::vector(&c.a)?;
            if c.op.two_tables() && model::vector(&c.b)?.keys().any(|&k| k >= CLIENTS) || c.client >= CLIENTS || ra.keys().any(|&k| k >= CLIENTS) { return None }
            let mut a = vector(&c.a);
            match c.op {
                VecGet => return count(a.get(&ClientID::new(c.client)) as u64),
                VecSetMin => a.set_min(ClientID::new(c.client), clock),
                VecSetMax => a.set_max(ClientID::new(c.client), clock),
                VecMerge => a.merge(vector(&c.b)),
                VecCompare => {
                    use std::cmp::Ordering::*;
                    return count(match a.partial_cmp(&vector(&c.b)) { None => 0, Some(Less) => 1, Some(Equal) => 2, Some(Greater) => 3 });
                }
                VecEncode => return Some(put(&sorted(&a.encode_v1()), c)),
                _ => unreachable!(),
            }
            Some(model::filled(kind, &vector_rows(&a), &c.out))
        }
    }
}
