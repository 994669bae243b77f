//! The rules in plain Rust: sets of clocks, maps of clients, numbers bit by bit. It shares no line
//! with the library or with the original, and is slow on purpose.
use crate::case::{Op::*, *};
use std::collections::{BTreeMap, BTreeSet};

pub const MOST_ROWS: usize = 1024;
pub const MOST_CLIENTS: usize = 256;

// ---- numbers

fn byte(bytes: &[u8], at: usize, k: usize) -> Option<u8> { bytes.get(at.checked_add(k)?).copied() }

/// The number at a place and the place past it: `first` bits of the first byte, then seven a byte,
/// the k-th byte's at `shift(k)`; bits past the width are lost.
fn bits(bytes: &[u8], at: usize, first: u32, width: u32, most: usize, shift: impl Fn(u32) -> u32) -> Result<(u64, usize), Option<u32>> {
    let mut value = 0u64;
    for k in 0..most {
        let b = byte(bytes, at, k).ok_or(Some(END))?;
        for j in 0..if k == 0 { first } else { 7 } {
            let place = shift(k as u32) + j;
            if b >> j & 1 == 1 && place < width { value |= 1u64 << place; }
        }
        if b < 128 { return Ok((value, at + k + 1)); }
    }
    Err(None)
}
fn read_unsigned(bytes: &[u8], at: usize, width: u32) -> Result<(u64, usize), u32> {
    bits(bytes, at, 7, width, 11, |k| 7 * k % width).map_err(|e| e.unwrap_or(LONG))
}
fn read_signed(bytes: &[u8], at: usize) -> Result<(i64, bool, usize), u32> {
    let (pattern, next) = bits(bytes, at, 6, 64, 10, |k| if k == 0 { 0 } else { 7 * k - 1 })
        .map_err(|e| e.unwrap_or(if byte(bytes, at, 10).is_some() { LONG } else { END }))?;
    let minus = bytes[at] >> 6 & 1 == 1;
    let value = pattern as i64 as i128 * if minus { -1 } else { 1 };
    // modulo 2^64, as two's complement
    let value = if value > i64::MAX as i128 { value - (1i128 << 64) } else { value };
    Ok((value as i64, minus, next))
}
/// Seven bits a byte, lowest first, the first byte `first` bits with `top` above them.
fn digits(mut x: u128, first: u32, top: u8) -> Vec<u8> {
    let mut v = vec![(x % (1 << first)) as u8 | top];
    x >>= first;
    while x > 0 {
        *v.last_mut().unwrap() |= 128;
        v.push((x % 128) as u8);
        x /= 128;
    }
    v
}
/// A reader's answer.
pub fn number(c: &Case) -> Num {
    let (int, signed) = match c.op { Read(i) => (i, false), ReadSigned(i) => (i, true), _ => unreachable!() };
    let (bytes, at) = (&c.bytes[..], c.at);
    let r: Result<(i128, bool, usize), u32> = match int {
        Int::U8 | Int::U32 => read_unsigned(bytes, at, 32).map(|(v, n)| (v as i128, false, n)),
        Int::U64 | Int::Usize => read_unsigned(bytes, at, 64).map(|(v, n)| (v as i128, false, n)),
        _ => read_signed(bytes, at).map(|(v, m, n)| (v as i128, m, n)),
    };
    match r {
        Ok((v, _, _)) if v < int.least() || v > int.most() => Num::refused(RANGE, at),
        Ok((v, minus, next)) => Num { no: DONE, value: v as u64, some: signed && minus, next },
        Err(no) => Num::refused(no, at),
    }
}

/// What a writer does with the bytes of a number or a vector.
fn put(new: &[u8], buf: &[u8], at: usize) -> Answer {
    let mut bytes = buf.to_vec();
    if at > buf.len() || buf.len() - at < new.len() { return Answer { no: FULL, next: at, bytes, ..Answer::default() } }
    for (i, b) in new.iter().enumerate() { bytes[at + i] = *b; }
    Answer { next: at + new.len(), bytes, ..Answer::default() }
}
fn write(int: Int, value: i128, flag: bool, buf: &[u8], at: usize) -> Answer {
    if int.least() < 0 { put(&digits(value.unsigned_abs(), 6, if flag { 64 } else { 0 }), buf, at) } else { put(&digits(value as u128, 7, 0), buf, at) }
}

// ---- tables: (client, start, end); a range table is one client's

pub type Rows = Vec<(u64, u32, u32)>;

/// The rows of a table that keeps its rules.
pub fn rows(kind: Kind, t: &Table) -> Option<Rows> {
    let r: Rows = match kind {
        Kind::Range => {
            if t.n > MOST_ROWS || t.n > t.ints.len() / 2 { return None }
            (0..t.n).map(|i| (0, t.ints[2 * i], t.ints[2 * i + 1])).collect()
        }
        Kind::Id => {
            if t.n > MOST_ROWS || t.n > t.longs.len() || t.n > t.ints.len() || t.n > t.more.len() { return None }
            (0..t.n).map(|i| (t.longs[i], t.ints[i], t.more[i])).collect()
        }
        _ => unreachable!(),
    };
    for x in &r { if x.1 >= x.2 { return None } }
    for w in r.windows(2) {
        if w[1].0 < w[0].0 { return None }
        if w[1].0 == w[0].0 && w[0].2 >= w[1].1 { return None }
    }
    Some(r)
}
pub fn vector(t: &Table) -> Option<BTreeMap<u64, u32>> {
    if t.n > MOST_CLIENTS || t.n > t.longs.len() || t.n > t.ints.len() { return None }
    for i in 1..t.n { if t.longs[i - 1] >= t.longs[i] { return None } }
    Some((0..t.n).map(|i| (t.longs[i], t.ints[i])).collect())
}

/// How many rows the output may hold.
pub fn most(kind: Kind, out: &Table) -> usize {
    match kind {
        Kind::Range => MOST_ROWS.min(out.ints.len() / 2),
        Kind::Id => MOST_ROWS.min(out.longs.len()).min(out.ints.len()).min(out.more.len()),
        _ => MOST_CLIENTS.min(out.longs.len()).min(out.ints.len()),
    }
}
/// The output all zero.
pub fn zeroed(out: &Table) -> Table { Table { n: 0, longs: vec![0; out.longs.len()], ints: vec![0; out.ints.len()], more: vec![0; out.more.len()] } }
/// The rows in front and zeros behind, or FULL.
pub fn filled(kind: Kind, rows: &[(u64, u32, u32)], out: &Table) -> Answer {
    let mut t = zeroed(out);
    if rows.len() > most(kind, out) { return Answer { no: FULL, out: t, ..Answer::default() } }
    t.n = rows.len();
    for (i, r) in rows.iter().enumerate() {
        match kind {
            Kind::Range => { t.ints[2 * i] = r.1; t.ints[2 * i + 1] = r.2 }
            Kind::Id => { t.longs[i] = r.0; t.ints[i] = r.1; t.more[i] = r.2 }
            _ => { t.longs[i] = r.0; t.ints[i] = r.1 }
        }
    }
    Answer { out: t, ..Answer::default() }
}

/// The one joined table of a set of ids.
fn table_of(set: &BTreeSet<(u64, u32)>) -> Rows {
    let mut r: Rows = vec![];
    for &(c, x) in set {
        match r.last_mut() {
            Some(l) if l.0 == c && l.2 == x => l.2 = x + 1,
            _ => r.push((c, x, x + 1)),
        }
    }
    r
}
fn ids_of(rows: &Rows) -> BTreeSet<(u64, u32)> { rows.iter().flat_map(|&(c, s, e)| (s..e).map(move |x| (c, x))).collect() }
fn size(rows: &Rows) -> u64 { rows.iter().map(|r| (r.2 - r.1) as u64).sum() }

fn holds(t: &BTreeMap<(u64, u32), u32>, p: (u64, u32)) -> bool { t.range(..=p).next_back().map_or(false, |(k, e)| k.0 == p.0 && p.1 < *e) }

/// The same for long ranges: between two neighbouring ends nothing changes, so each such stretch
/// stands for its first clock.
fn by_stretches(a: &Rows, b: &Rows, f: fn(bool, bool) -> bool) -> Rows {
    let map = |r: &Rows| r.iter().map(|&(c, s, e)| ((c, s), e)).collect::<BTreeMap<_, _>>();
    let (ma, mb) = (map(a), map(b));
    let points: Vec<(u64, u32)> = a.iter().chain(b).flat_map(|&(c, s, e)| [(c, s), (c, e)]).collect::<BTreeSet<_>>().into_iter().collect();
    let mut r: Rows = vec![];
    for w in points.windows(2) {
        let (p, q) = (w[0], w[1]);
        if p.0 == q.0 && f(holds(&ma, p), holds(&mb, p)) {
            match r.last_mut() {
                Some(l) if l.0 == p.0 && l.2 == p.1 => l.2 = q.1,
                _ => r.push((p.0, p.1, q.1)),
            }
        }
    }
    r
}
#[derive(Clone, Copy)]
pub enum Set { Union, Difference, Intersection }
pub fn combined(op: Set, a: &Rows, b: &Rows) -> Rows {
    if size(a) + size(b) <= 96 {
        let (x, y) = (ids_of(a), ids_of(b));
        return table_of(&match op { Set::Union => &x | &y, Set::Difference => &x - &y, Set::Intersection => &x & &y });
    }
    stretches(op, a, b)
}
/// For the test of the two ways against each other.
pub fn stretches(op: Set, a: &Rows, b: &Rows) -> Rows {
    by_stretches(a, b, match op { Set::Union => |p, q| p | q, Set::Difference => |p, q| p & !q, Set::Intersection => |p, q| p & q })
}
/// The table of one range, empty where start >= end.
fn one(c: u64, s: u32, e: u32) -> Rows { if s < e { vec![(c, s, e)] } else { vec![] } }

fn from_ranges(t: &Table, out: &Table) -> Answer {
    if t.n > t.ints.len() / 2 { return malformed(out, 0) }
    let room = most(Kind::Range, out);
    // rows by their start; a new range takes in every row that it meets or touches
    let mut rows: BTreeMap<u32, u32> = BTreeMap::new();
    for i in 0..t.n {
        let (mut s, mut e) = (t.ints[2 * i], t.ints[2 * i + 1]);
        if s < e {
            let met: Vec<(u32, u32)> = rows.range(..=e).rev().take_while(|(_, &end)| end >= s).map(|(&x, &y)| (x, y)).collect();
            for (x, y) in met { rows.remove(&x); s = s.min(x); e = e.max(y); }
            rows.insert(s, e);
        }
        if rows.len() > room { return Answer { no: FULL, out: zeroed(out), ..Answer::default() } }
    }
    filled(Kind::Range, &rows.into_iter().map(|(s, e)| (0, s, e)).collect::<Rows>(), out)
}

// ---- state vectors

fn vector_filled(v: &BTreeMap<u64, u32>, out: &Table) -> Answer { filled(Kind::Vector, &v.iter().map(|(&c, &k)| (c, k, 0)).collect::<Rows>(), out) }

pub fn vector_bytes(v: &BTreeMap<u64, u32>) -> Vec<u8> {
    let mut b = digits(v.len() as u128, 7, 0);
    for (&c, &k) in v { b.extend(digits(c as u128, 7, 0)); b.extend(digits(k as u128, 7, 0)); }
    b
}
fn decode(bytes: &[u8], at: usize, out: &Table) -> Answer {
    let mut go = || -> Result<(BTreeMap<u64, u32>, usize), u32> {
        let (count, mut next) = read_unsigned(bytes, at, 32)?;
        let mut v = BTreeMap::new();
        for _ in 0..count {
            let (c, n) = read_unsigned(bytes, next, 64)?;
            let (k, n) = read_unsigned(bytes, n, 32)?;
            v.insert(c, k as u32);
            if v.len() > most(Kind::Vector, out) { return Err(FULL) }
            next = n;
        }
        Ok((v, next))
    };
    match go() {
        Ok((v, next)) => Answer { next, ..vector_filled(&v, out) },
        Err(no) => Answer { no, next: at, out: zeroed(out), ..Answer::default() },
    }
}
fn verdict(a: &BTreeMap<u64, u32>, b: &BTreeMap<u64, u32>) -> u64 {
    let get = |v: &BTreeMap<u64, u32>, c: u64| v.get(&c).copied().unwrap_or(0);
    let clients: BTreeSet<u64> = a.keys().chain(b.keys()).copied().collect();
    let below = clients.iter().any(|&c| get(a, c) < get(b, c));
    let above = clients.iter().any(|&c| get(a, c) > get(b, c));
    match (below, above) { (true, false) => 1, (false, false) => 2, (false, true) => 3, (true, true) => 0 }
}

// ---- a call

fn malformed(out: &Table, at: usize) -> Answer { Answer { no: MALFORMED, next: at, out: zeroed(out), ..Answer::default() } }

pub fn answer(c: &Case) -> Answer {
    match c.op {
        Read(_) | ReadSigned(_) => return number(c).into(),
        Write(i) => return write(i, c.int, c.int < 0, &c.bytes, c.at),
        WriteSigned(i) => {
            if c.int > 0 && c.flag || c.int < 0 && !c.flag { return Answer { no: SIGN, next: c.at, bytes: c.bytes.clone(), ..Answer::default() } }
            return write(i, c.int, c.flag, &c.bytes, c.at);
        }
        FromRanges => return from_ranges(&c.a, &c.out),
        VecDecode => return decode(&c.bytes, c.at, &c.out),
        _ => {}
    }
    let none = Answer::default();
    let yes = |some: bool| Answer { some, ..Answer::default() };
    let count = |value: u64| Answer { value, ..Answer::default() };
    let maybe = |x: Option<u64>| Answer { some: x.is_some(), value: x.unwrap_or(0), ..Answer::default() };
    let kind = c.op.kind();
    if kind == Kind::Vector {
        let Some(mut a) = vector(&c.a) else { return Answer { bytes: c.bytes.clone(), ..malformed(&c.out, c.at) } };
        let clock = c.start as u32;
        return match c.op {
            VecGet => count(a.get(&c.client).copied().unwrap_or(0) as u64),
            VecSetMin => { let k = a.get(&c.client).map_or(clock, |&o| o.min(clock)); a.insert(c.client, k); vector_filled(&a, &c.out) }
            VecSetMax => { let k = a.get(&c.client).map_or(clock, |&o| o.max(clock)); a.insert(c.client, k); vector_filled(&a, &c.out) }
            VecEncode => put(&vector_bytes(&a), &c.bytes, c.at),
            VecMerge => {
                let Some(b) = vector(&c.b) else { return malformed(&c.out, c.at) };
                for (k, v) in b { let e = a.entry(k).or_insert(v); *e = (*e).max(v); }
                vector_filled(&a, &c.out)
            }
            VecCompare => { let Some(b) = vector(&c.b) else { return malformed(&c.out, c.at) }; count(verdict(&a, &b)) }
            _ => unreachable!(),
        };
    }
    let Some(a) = rows(kind, &c.a) else { return malformed(&c.out, c.at) };
    let b = if c.op.two_tables() { match rows(kind, &c.b) { Some(b) => b, None => return malformed(&c.out, c.at) } } else { vec![] };
    let clock = c.start as u32;
    let new = || one(c.client, c.start as u32, c.end);
    let has = |cl: u64| a.iter().any(|r| r.0 == cl && r.1 <= clock && clock < r.2);
    match c.op {
        Contains => yes(has(0)),
        FindStart => maybe(a.iter().position(|r| r.2 > clock).map(|i| i as u64)),
        ClockStart => maybe(a.first().map(|r| r.1 as u64)),
        ClockEnd => maybe(a.last().map(|r| r.2 as u64)),
        Len => count(a.len() as u64),
        IsEmpty | IdIsEmpty => yes(a.is_empty()),
        Get => a.get(c.start as usize).map_or(none, |r| Answer { some: true, value: r.1 as u64, second: r.2 as u64, ..Answer::default() }),
        Insert | IdInsert => filled(kind, &combined(Set::Union, &a, &new()), &c.out),
        Remove => filled(kind, &combined(Set::Difference, &a, &new()), &c.out),
        Merge | IdMerge => filled(kind, &combined(Set::Union, &a, &b), &c.out),
        Exclude | IdDiff => filled(kind, &combined(Set::Difference, &a, &b), &c.out),
        Intersect | IdIntersect => filled(kind, &combined(Set::Intersection, &a, &b), &c.out),
        IdContains => yes(has(c.client)),
        IdLen => count(a.iter().map(|r| r.0).collect::<BTreeSet<_>>().len() as u64),
        IdCapture => filled(kind, &a, &c.out),
        _ => unreachable!(),
    }
}
