//! Cases: every small one, then random ones around each boundary. Each goes to `see`; part `p` of
//! `parts` sees its own share.
use crate::case::{Op::*, *};
use crate::model;
use crate::rng::Rng;

/// A short run takes each case in one of its rooms by turns, a long one in all.
pub struct Share { pub p: u64, pub parts: u64, pub long: bool }

fn readers() -> Vec<Op> { ops().into_iter().filter(|o| matches!(o, Read(_) | ReadSigned(_))).collect() }
fn writers() -> Vec<Op> { ops().into_iter().filter(|o| matches!(o, Write(_) | WriteSigned(_))).collect() }

// ---- every small case

/// Every string of at most three bytes, for each reader; those of at most two at other places too.
pub fn short_strings(s: &Share, see: &mut dyn FnMut(&Case)) {
    let ops = readers();
    let mut c = Case::of(ops[0]);
    for len in 0..=3u32 { for x in 0..1u64 << (8 * len) {
        if x % s.parts != s.p { continue }
        c.bytes.clear();
        c.bytes.extend_from_slice(&x.to_le_bytes()[..len as usize]);
        for &op in &ops { c.op = op; c.at = 0; see(&c); }
        if len <= 2 { for &op in &ops { c.op = op; for at in [1, 2, 3, usize::MAX - 1, usize::MAX] { c.at = at; see(&c) } } }
    } }
}
/// Every string of at most `most` of the given bytes.
pub fn strings_over(letters: &[u8], most: u32, s: &Share, see: &mut dyn FnMut(&Case)) {
    let ops = readers();
    let mut c = Case::of(ops[0]);
    for len in 4..=most { for x in 0..(letters.len() as u64).pow(len) {
        if x % s.parts != s.p { continue }
        c.bytes.clear();
        let mut y = x;
        for _ in 0..len { c.bytes.push(letters[(y % letters.len() as u64) as usize]); y /= letters.len() as u64 }
        for &op in &ops { c.op = op; see(&c) }
    } }
}
/// Every number of up to eleven bytes, all but the last from `letters` (continued), then one of
/// several ends, with nothing or one byte behind it.
pub fn runs_over(letters: &[u8], s: &Share, see: &mut dyn FnMut(&Case)) {
    let ops = readers();
    let mut c = Case::of(ops[0]);
    for len in 4..=11u32 { for x in 0..(letters.len() as u64).pow(len) {
        if x % s.parts != s.p { continue }
        for end in [0x00, 0x01, 0x02, 0x3f, 0x40, 0x7f] {
            c.bytes.clear();
            let mut y = x;
            for _ in 0..len { c.bytes.push(letters[(y % letters.len() as u64) as usize]); y /= letters.len() as u64 }
            c.bytes.push(end);
            for &op in &ops { c.op = op; see(&c) }
        }
    } }
}
/// Every value of at most 16 bits and the neighbours of every power of two, into rooms one short,
/// exact and one over; then every small place and room.
pub fn all_writes(s: &Share, see: &mut dyn FnMut(&Case)) {
    let mut values: Vec<i128> = (-(1 << 15)..1 << 16).collect();
    for k in 15..=64u32 { for d in -2..=2i128 { values.push((1i128 << k) + d); values.push(-(1i128 << k) + d); } }
    for op in writers() {
        let (Write(i) | WriteSigned(i)) = op else { unreachable!() };
        for (j, &v) in values.iter().enumerate() {
            if j as u64 % s.parts != s.p || v < i.least() || v > i.most() { continue }
            let mut c = Case::of(op);
            c.int = v;
            for flag in [false, true] {
                if flag && !matches!(op, WriteSigned(_)) { continue }
                c.flag = flag;
                c.at = j % 3;
                c.bytes = vec![0xa7; 24];
                let need = model::answer(&c).next - c.at;
                for room in [need.saturating_sub(1), need, need + 1] {
                    c.bytes.truncate(0);
                    c.bytes.resize(c.at + room, 0x5a + room as u8);
                    see(&c);
                }
                if v.unsigned_abs().is_power_of_two() { for room in 0..=12 { for at in [0, 1, 11, 12, 13, 14, usize::MAX - 3, usize::MAX] { c.bytes = vec![0xff; room]; let keep = c.at; c.at = at; see(&c); c.at = keep } } }
            }
        }
    }
}

pub fn range_table(rows: &[(u64, u32, u32)]) -> Table { Table { n: rows.len(), ints: rows.iter().flat_map(|r| [r.1, r.2]).collect(), ..Table::default() } }
pub fn id_table(rows: &[(u64, u32, u32)]) -> Table {
    Table { n: rows.len(), longs: rows.iter().map(|r| r.0).collect(), ints: rows.iter().map(|r| r.1).collect(), more: rows.iter().map(|r| r.2).collect() }
}
pub fn vec_table(rows: &[(u64, u32)]) -> Table { Table { n: rows.len(), longs: rows.iter().map(|r| r.0).collect(), ints: rows.iter().map(|r| r.1).collect(), ..Table::default() } }

/// An output for `rows` rows, and `odd` elements more in a slice, full of what must go.
pub fn room(kind: Kind, rows: usize, odd: usize) -> Table {
    match kind {
        Kind::Range => Table { ints: vec![0xdead_beef; 2 * rows + odd], ..Table::default() },
        Kind::Id => Table { longs: vec![0xdead_beef_dead_beef; rows + odd], ints: vec![0xdead_beef; rows], more: vec![0xdead_beef; rows + odd / 2], ..Table::default() },
        _ => Table { longs: vec![0xdead_beef_dead_beef; rows], ints: vec![0xdead_beef; rows + odd], ..Table::default() },
    }
}
/// The rooms one short, exact and one over what the case needs.
fn in_rooms(s: &Share, c: &mut Case, see: &mut dyn FnMut(&Case)) {
    thread_local! { static TURN: std::cell::Cell<usize> = const { std::cell::Cell::new(0) } }
    let turn = TURN.with(|t| { t.set(t.get() + 1); (t.get() + t.get() / 3) % 3 });
    let kind = c.op.kind();
    c.out = room(kind, if kind == Kind::Vector { model::MOST_CLIENTS } else { model::MOST_ROWS.min(c.a.n + c.b.n + 2) }, 0);
    let need = model::answer(c).out.n;
    for (i, (rows, odd)) in [(need.saturating_sub(1), 1), (need, 0), (need + 1, 1)].into_iter().enumerate() { if s.long || i == turn { c.out = room(kind, rows, odd); see(c) } }
}

fn bits_to_rows(set: u32, clocks: u32, base: u32, client: u64) -> model::Rows {
    let mut r: model::Rows = vec![];
    for i in 0..clocks { if set >> i & 1 == 1 {
        let x = base + i;
        match r.last_mut() { Some(l) if l.2 == x => l.2 = x + 1, _ => r.push((client, x, x + 1)) }
    } }
    r
}
/// Every pair of range tables over 8 clocks at both ends of u32; every range in and out of each;
/// every look; every list of three ranges over 5 places.
pub fn all_ranges(s: &Share, see: &mut dyn FnMut(&Case)) {
    const N: u32 = 8;
    for base in [0u32, u32::MAX - N] {
        let tables: Vec<Table> = (0..1u32 << N).map(|x| range_table(&bits_to_rows(x, N, base, 0))).collect();
        for (i, a) in tables.iter().enumerate() {
            if i as u64 % s.parts != s.p { continue }
            let mut c = Case::of(Merge);
            c.a = a.clone();
            for b in &tables {
                c.b = b.clone();
                for op in [Merge, Exclude, Intersect] { c.op = op; in_rooms(s, &mut c, see) }
            }
            c.b = Table::default();
            for op in [Insert, Remove] { c.op = op; for x in 0..=N { for y in 0..=N { c.start = (base + x) as u64; c.end = base + y; in_rooms(s, &mut c, see) } } }
            c.end = 0;
            c.out = Table::default();
            for op in [ClockStart, ClockEnd, Len, IsEmpty] { c.op = op; c.start = 0; see(&c) }
            for op in [Contains, FindStart] { c.op = op; for x in (0..=N).map(|x| base + x).chain([0, 1 << 31, u32::MAX]) { c.start = x as u64; see(&c) } }
            c.op = Get;
            for x in [0, 1, 2, 3, 4, 5, 1 << 32, 1 << 63, u64::MAX] { c.start = x; see(&c) }
        }
        let pairs: Vec<(u32, u32)> = (0..5).flat_map(|x| (0..5).map(move |y| (base + x, base + y))).collect();
        for n in 0..=3u32 { for x in 0..25u64.pow(n) {
            if x % s.parts != s.p { continue }
            let mut c = Case::of(FromRanges);
            c.a.n = n as usize;
            c.a.ints = (0..n).flat_map(|k| { let p = pairs[(x / 25u64.pow(k) % 25) as usize]; [p.0, p.1] }).collect();
            for r in 0..=3 { c.out = room(Kind::Range, r, r % 2); see(&c) }
            c.a.n += 1; see(&c);
        } }
    }
}
/// Every pair of id tables over 3 clients and 3 clocks.
pub fn all_ids(s: &Share, see: &mut dyn FnMut(&Case)) {
    for (clients, base) in [([0u64, 1, u32::MAX as u64], 0u32), ([1 << 32, 1 << 52, (1 << 53) - 1], u32::MAX - 3)] {
        let tables: Vec<Table> = (0..512u32).map(|x| id_table(&(0..3).flat_map(|k| bits_to_rows(x >> (3 * k) & 7, 3, base, clients[k as usize])).collect::<Vec<_>>())).collect();
        for (i, a) in tables.iter().enumerate() {
            if i as u64 % s.parts != s.p { continue }
            let mut c = Case::of(IdMerge);
            c.a = a.clone();
            for b in &tables { c.b = b.clone(); for op in [IdMerge, IdDiff, IdIntersect] { c.op = op; in_rooms(s, &mut c, see) } }
            c.b = Table::default();
            c.op = IdCapture; in_rooms(s, &mut c, see);
            c.out = Table::default();
            for op in [IdIsEmpty, IdLen] { c.op = op; see(&c) }
            for &cl in clients.iter().chain(&[2]) {
                c.client = cl;
                c.op = IdContains;
                for x in 0..=3 { c.start = (base + x) as u64; see(&c) }
                c.op = IdInsert;
                for x in 0..=3 { for y in 0..=3 { c.start = (base + x) as u64; c.end = base + y; in_rooms(s, &mut c, see) } }
                c.end = 0;
                c.out = Table::default();
            }
        }
    }
}
/// Every pair of vectors over 3 clients, each absent or at one of four clocks; each encoded, and
/// decoded into each room.
pub fn all_vectors(s: &Share, see: &mut dyn FnMut(&Case)) {
    let clocks = [0u32, 1, 128, u32::MAX];
    for clients in [[0u64, 1, u32::MAX as u64], [127, 128, 1 << 52], [300, 1 << 53, u64::MAX]] {
        let tables: Vec<Table> = (0..125usize).map(|x| vec_table(&(0..3).filter_map(|k| { let d = x / 5usize.pow(k) % 5; if d == 0 { None } else { Some((clients[k as usize], clocks[d - 1])) } }).collect::<Vec<_>>())).collect();
        for (i, a) in tables.iter().enumerate() {
            if i as u64 % s.parts != s.p { continue }
            let mut c = Case::of(VecMerge);
            c.a = a.clone();
            for b in &tables { c.b = b.clone(); c.op = VecMerge; in_rooms(s, &mut c, see); c.op = VecCompare; c.out = Table::default(); see(&c) }
            c.b = Table::default();
            for &cl in clients.iter().chain(&[2]) { for &k in &clocks {
                c.client = cl;
                c.start = k as u64;
                for op in [VecSetMin, VecSetMax] { c.op = op; in_rooms(s, &mut c, see) }
                c.op = VecGet; c.out = Table::default(); see(&c);
            } }
            c.client = 0;
            c.start = 0;
            c.op = VecEncode;
            c.bytes = vec![0x99; 64];
            let whole = model::answer(&c);
            for at in 0..3 { for r in (0..=whole.next + 1).chain([64]) { c.at = at; c.bytes = vec![0x99; r]; see(&c) } }
            c.op = VecDecode;
            c.a = Table::default();
            for at in 0..2 { for cut in 0..=whole.next { for rows in 0..=4 {
                c.at = at;
                c.bytes = vec![0x81; at];
                c.bytes.extend_from_slice(&whole.bytes[..cut]);
                c.out = room(Kind::Vector, rows, rows % 2);
                see(&c);
            } } }
        }
    }
}
/// Every vector encoding of at most 7 bytes over a few telling bytes, into rooms of 0 to 3 rows.
pub fn all_decodes(s: &Share, see: &mut dyn FnMut(&Case)) {
    let letters = [0x00u8, 0x01, 0x02, 0x03, 0x07, 0x80, 0xff];
    let mut c = Case::of(VecDecode);
    for len in 0..=7u32 { for x in 0..7u64.pow(len) {
        if x % s.parts != s.p { continue }
        c.bytes = (0..len).map(|k| letters[(x / 7u64.pow(k) % 7) as usize]).collect();
        c.out = room(Kind::Vector, (x % 4) as usize, (x / 4 % 2) as usize);
        see(&c);
    } }
}
/// Declared counts about 65,536 and on to 2^32-1, with few pairs behind them, into rooms of 0 to 3 rows.
pub fn huge_counts(s: &Share, see: &mut dyn FnMut(&Case)) {
    let tails: [&[u8]; 9] = [&[], &[7], &[7, 1], &[7, 1, 7, 5], &[7, 1, 8, 2], &[7, 1, 8, 2, 9, 3], &[7, 1, 8, 0x80], &[7, 1, 0x80], &[7, 1, 7, 5, 7, 6, 7]];
    let mut c = Case::of(VecDecode);
    for (i, n) in HUGE.into_iter().enumerate() {
        if i as u64 % s.parts != s.p { continue }
        for tail in tails { for rows in 0..4 { for at in 0..3 {
            c.bytes = declared(n, tail);
            c.bytes.splice(0..0, vec![0xff; at]);
            c.at = at;
            c.out = room(Kind::Vector, rows, at % 2);
            see(&c);
        } } }
    }
}
pub const HUGE: [u32; 12] = [65_535, 65_536, 65_537, 1 << 20, 1 << 24, (1 << 28) - 1, 1 << 28, (1 << 31) - 1, 1 << 31, (1 << 31) + 1, u32::MAX - 1, u32::MAX];
/// A declared count and what stands behind it.
pub fn declared(mut n: u32, tail: &[u8]) -> Vec<u8> {
    let mut b = vec![];
    while n >= 128 { b.push(n as u8 | 128); n >>= 7 }
    b.push(n as u8);
    b.extend_from_slice(tail);
    b
}
/// Tables of any rows at all over four values, with any count: most break the rules.
pub fn all_malformed(s: &Share, see: &mut dyn FnMut(&Case)) {
    let v = [0u32, 1, 2, u32::MAX];
    let good = range_table(&[(0, 1, 2)]);
    for len in 0..=6u32 { for x in 0..4u64.pow(len) {
        if x % s.parts != s.p { continue }
        let ints: Vec<u32> = (0..len).map(|k| v[(x / 4u64.pow(k) % 4) as usize]).collect();
        for n in [0, 1, 2, 3, 4, usize::MAX / 2 + 2, usize::MAX] {
            let bad = Table { n, ints: ints.clone(), ..Table::default() };
            for op in RANGE_OPS {
                let mut c = Case::of(op);
                c.start = x % 3; c.end = 2;
                if !matches!(op, Insert | Remove) { c.end = 0 }
                if op.gives_table() { c.out = room(Kind::Range, n.min(3), 1) }
                c.a = bad.clone();
                if op.two_tables() { c.b = good.clone(); see(&c); std::mem::swap(&mut c.a, &mut c.b) }
                see(&c);
            }
        }
    } }
    let good = id_table(&[(1, 1, 2)]);
    for n in 0..=2u32 { for x in 0..48u64.pow(n) {
        if x % s.parts != s.p { continue }
        let row = |k: u32| { let y = x / 48u64.pow(k) % 48; ([0, 1, u64::MAX][(y % 3) as usize], v[(y / 3 % 4) as usize], v[(y / 12) as usize]) };
        let base = id_table(&(0..n).map(row).collect::<Vec<_>>());
        for cut in 0..6 {
            let mut bad = base.clone();
            match cut { 1 => { bad.longs.pop(); } 2 => { bad.ints.pop(); } 3 => { bad.more.pop(); } 4 => bad.n += 1, 5 => bad.n = usize::MAX, _ => {} }
            for op in ID_OPS {
                let mut c = Case::of(op);
                if matches!(op, IdInsert | IdContains) { c.client = x % 2; c.start = 1 }
                if op == IdInsert { c.end = 2 }
                if op.gives_table() { c.out = room(Kind::Id, 3, 1) }
                c.a = bad.clone();
                if op.two_tables() { c.b = good.clone(); see(&c); std::mem::swap(&mut c.a, &mut c.b) }
                see(&c);
            }
            for op in VEC_OPS {
                if op == VecDecode { continue }
                let mut c = Case::of(op);
                if matches!(op, VecGet | VecSetMin | VecSetMax) { c.client = 1; c.start = 7 }
                if op.gives_table() { c.out = room(Kind::Vector, 3, 1) }
                if op == VecEncode { c.bytes = vec![9; 40]; c.at = 1 }
                c.a = Table { more: vec![], ..bad.clone() };
                if op.two_tables() { c.b = vec_table(&[(1, 1)]); see(&c); std::mem::swap(&mut c.a, &mut c.b) }
                see(&c);
            }
        }
    } }
}

// ---- random cases

fn number(r: &mut Rng) -> u64 { let b = r.below(65); if b == 0 { 0 } else { let x = r.next() >> (64 - b); match r.below(8) { 0 => x | 1 << (b - 1), 1 => 1 << (b - 1), 2 => u64::MAX >> (64 - b), _ => x } } }

/// A number written by the rules, then perhaps damaged, at some place among other bytes.
pub fn random_read(r: &mut Rng, ops: &[Op], see: &mut dyn FnMut(&Case)) {
    let mut c = Case::of(ops[0]);
    let lead = r.below(4) as usize;
    for _ in 0..lead { c.bytes.push(r.next() as u8) }
    match r.below(4) {
        0 => { // continued bytes, of every length about each end
            let len = r.below(14);
            let fill = [0x80, 0xff, 0xc0, 0x81][r.below(4) as usize];
            for _ in 0..len { let b = if r.below(3) == 0 { fill } else { r.next() as u8 | 0x80 }; c.bytes.push(b) }
            if r.below(4) > 0 { c.bytes.push(r.next() as u8 & 0x7f) }
        }
        k => {
            let mut x = number(r);
            if k == 1 { c.bytes.push((x & 63) as u8 | (r.below(2) as u8) << 6 | if x > 63 { 128 } else { 0 }); x >>= 6; if x == 0 { x = u64::MAX } } // a signed number's first byte
            if x != u64::MAX || k != 1 { loop { let b = (x & 127) as u8; x >>= 7; if x > 0 { c.bytes.push(b | 128) } else { c.bytes.push(b); break } } }
            match r.below(6) {
                0 => { let i = r.below(c.bytes.len() as u64) as usize; c.bytes[i] ^= 1 << r.below(8) }
                1 => { c.bytes.pop(); }
                2 => { let n = c.bytes.len(); c.bytes[n - 1] |= 128; for _ in 0..r.below(10) { c.bytes.push(0x80) } c.bytes.push(0) } // overlong
                _ => {}
            }
        }
    }
    for _ in 0..r.below(3) { c.bytes.push(r.next() as u8) }
    c.at = match r.below(40) { 0 => c.bytes.len(), 1 => c.bytes.len() + 1, 2 => usize::MAX, 3 => 0, _ => lead };
    for &op in ops { c.op = op; see(&c) }
}
pub fn random_write(r: &mut Rng, ops: &[Op], see: &mut dyn FnMut(&Case)) {
    let x = number(r) as i128;
    let x = if r.below(2) == 0 { -x } else { x };
    for &op in ops {
        let (Write(i) | WriteSigned(i)) = op else { unreachable!() };
        let mut c = Case::of(op);
        c.int = if x < i.least() || x > i.most() { if i.least() == 0 { (x.unsigned_abs() as i128) & i.most() } else { x % (i.most() + 1) } } else { x };
        c.flag = matches!(op, WriteSigned(_)) && if r.below(8) == 0 { r.below(2) == 0 } else { c.int < 0 || c.int == 0 && r.below(2) == 0 };
        c.at = r.below(4) as usize;
        c.bytes = vec![r.next() as u8; 24];
        let need = model::answer(&c).next - c.at;
        let len = match r.below(4) { 0 => c.at + need.saturating_sub(1), 1 => c.at + need, 2 => c.at + need + 1, _ => r.below(16) as usize };
        c.bytes.truncate(len);
        see(&c);
    }
}

#[derive(Clone, Copy)]
pub struct Shape { pub rows: usize, pub gap: u64, pub len: u64 }
/// Rows of one client, at the low end, the high end or anywhere.
fn random_rows(r: &mut Rng, n: usize, client: u64, sh: Shape) -> model::Rows {
    let mut at = 0u64;
    let mut v: Vec<(u64, u64)> = (0..n).map(|_| { let s = at + r.below(sh.gap + 1); let e = s + 1 + r.below(sh.len); at = e + 1; (s, e) }).collect();
    let end = v.last().map_or(0, |x| x.1);
    let top = u32::MAX as u64;
    while v.last().map_or(false, |x| x.1 > top) { v.pop(); }
    let end = v.last().map_or(end, |x| x.1);
    let base = match r.below(3) { 0 => 0, 1 => top.saturating_sub(end), _ => r.below(top.saturating_sub(end) + 1) };
    let base = if end > top { 0 } else { base };
    v.into_iter().map(|(s, e)| (client, (base + s) as u32, (base + e) as u32)).collect()
}
/// A table like another: its ends moved a little, rows left out, gaps filled.
fn like(r: &mut Rng, rows: &model::Rows) -> model::Rows {
    let mut t: model::Rows = vec![];
    for &(c, s, e) in rows {
        let (s, e) = match r.below(6) {
            0 => continue,
            1 => (s.saturating_sub(r.below(3) as u32), e),
            2 => (s, e.saturating_add(r.below(3) as u32)),
            3 => (e, e.saturating_add(1 + r.below(4) as u32)),
            4 => (s.saturating_add(1), e),
            _ => (s, e),
        };
        if s >= e || t.last().map_or(false, |l| l.0 == c && l.2 >= s) { continue }
        t.push((c, s, e));
    }
    t
}
/// One element of the table, or its count, changed.
fn damaged(r: &mut Rng, t: &mut Table) {
    match r.below(6) {
        0 => t.n = t.n.wrapping_add(1),
        1 => t.n = [0, 256, 257, 1024, 1025, usize::MAX][r.below(6) as usize],
        2 if !t.longs.is_empty() => { let i = r.below(t.longs.len() as u64) as usize; t.longs[i] = t.longs[i].wrapping_add(r.below(3)).wrapping_sub(1) }
        3 if !t.more.is_empty() => { let i = r.below(t.more.len() as u64) as usize; t.more[i] = t.more[i].wrapping_add(r.below(3) as u32).wrapping_sub(1) }
        4 if !t.longs.is_empty() => { t.longs.pop(); }
        _ if !t.ints.is_empty() => { let i = r.below(t.ints.len() as u64) as usize; t.ints[i] = if r.below(2) == 0 { t.ints[i].wrapping_add(r.below(3) as u32).wrapping_sub(1) } else { r.next() as u32 } }
        _ => {}
    }
}
/// Elements past the count, which no answer may depend on.
fn spare(r: &mut Rng, t: &mut Table, kind: Kind) {
    for _ in 0..r.below(4) {
        t.ints.push(r.next() as u32);
        if kind != Kind::Range { t.longs.push(r.next()) }
        if kind == Kind::Id { t.more.push(r.next() as u32) }
    }
}
fn random_out(r: &mut Rng, kind: Kind, need: usize) -> Table {
    let rows = match r.below(8) { 0 => need.saturating_sub(1), 1 | 2 => need, 3 => need + 1, 4 => r.below(need as u64 + 4) as usize, 5 => need + r.below(64) as usize, 6 => 1024 + r.below(3) as usize, _ => need + 4 };
    room(kind, rows, r.below(3) as usize)
}
fn with_room(r: &mut Rng, c: &mut Case, see: &mut dyn FnMut(&Case)) {
    let kind = c.op.kind();
    if c.op.gives_table() {
        c.out = room(kind, 1024, 0);
        let whole = model::answer(c);
        let need = if whole.no == DONE { whole.out.n } else { c.a.n.min(1030) };
        c.out = random_out(r, kind, need);
    } else { c.out = Table::default() }
    see(c);
}
fn random_clients(r: &mut Rng, n: usize) -> Vec<u64> {
    let top = [4, 4 * n as u64 + 1, 1 << 32, 1 << 53][r.below(4) as usize];
    let mut v: Vec<u64> = (0..n).map(|_| match r.below(40) { 0 => u64::MAX - r.below(3), 1 => (1 << 32) + r.below(3), _ => r.below(top) }).collect();
    v.sort();
    v.dedup();
    v
}
fn clock_near(r: &mut Rng, t: &Table) -> u32 {
    if t.ints.is_empty() || r.below(4) == 0 { return match r.below(4) { 0 => 0, 1 => u32::MAX, _ => r.next() as u32 } }
    let x = t.ints[r.below(t.ints.len() as u64) as usize];
    x.wrapping_add(r.below(5) as u32).wrapping_sub(2)
}
/// Each range operation once, on tables of about `rows` rows.
pub fn random_range(r: &mut Rng, rows: usize, see: &mut dyn FnMut(&Case)) {
    let sh = Shape { rows, gap: [1, 3, 16, 1000, 1 << 22][r.below(5) as usize], len: [1, 2, 16, 1000, 1 << 21][r.below(5) as usize] };
    let pick = |r: &mut Rng| if rows >= 1000 { rows - r.below(4) as usize } else { r.below(rows as u64 + 1) as usize };
    let n = pick(r);
    let ra = random_rows(r, n, 0, sh);
    let m = pick(r);
    let rb = if r.below(2) == 0 { like(r, &ra) } else { random_rows(r, m, 0, sh) };
    let (mut a, mut b) = (range_table(&ra), range_table(&rb));
    spare(r, &mut a, Kind::Range);
    spare(r, &mut b, Kind::Range);
    if r.below(8) == 0 { damaged(r, &mut a) }
    if r.below(16) == 0 { damaged(r, &mut b) }
    for op in RANGE_OPS {
        let mut c = Case::of(op);
        c.a = a.clone();
        if op.two_tables() { c.b = b.clone() }
        match op {
            Contains | FindStart => { for _ in 0..4 { c.start = clock_near(r, &a) as u64; see(&c) } continue }
            Get => { for _ in 0..2 { c.start = match r.below(8) { 0 => r.next(), 1 => a.n as u64, _ => r.below(a.n.min(2000) as u64 + 1) }; see(&c) } continue }
            Insert | Remove => {
                for _ in 0..3 {
                    c.start = clock_near(r, &a) as u64;
                    c.end = if r.below(2) == 0 { clock_near(r, &a) } else { (c.start as u32).saturating_add(r.below(20) as u32) };
                    with_room(r, &mut c, see);
                }
                continue;
            }
            FromRanges => {
                let n = if rows >= 1000 { 900 + r.below(200) as usize } else { r.below(2 * rows as u64 + 2) as usize };
                let mut v: Vec<(u32, u32)> = (0..n).map(|_| { let s = if r.below(3) == 0 { clock_near(r, &a) } else { r.below(sh.gap * 2 * n as u64 + 4) as u32 }; (s, s.saturating_add(r.below(sh.len + 1) as u32)) }).collect();
                if r.below(3) == 0 { v.sort() }
                if r.below(6) == 0 { v.sort(); v.reverse() }
                c.a = Table { n, ints: v.iter().flat_map(|p| [p.0, p.1]).collect(), ..Table::default() };
                if r.below(16) == 0 { c.a.n += r.below(3) as usize }
            }
            _ => {}
        }
        with_room(r, &mut c, see);
    }
}
pub fn random_id(r: &mut Rng, rows: usize, see: &mut dyn FnMut(&Case)) {
    let many = match r.below(3) { 0 => 1 + r.below(3) as usize, 1 => 1 + rows / 16, _ => rows.max(1) };
    let clients = random_clients(r, many);
    let sh = Shape { rows, gap: [1, 3, 16, 1000][r.below(4) as usize], len: [1, 2, 16, 1000][r.below(4) as usize] };
    let make = |r: &mut Rng| -> model::Rows {
        let mut t: model::Rows = vec![];
        for &c in &clients { if r.below(4) > 0 { let k = 1 + r.below((2 * rows / clients.len().max(1)) as u64 + 1) as usize; t.extend(random_rows(r, k, c, sh)) } }
        if rows < 1000 || r.below(4) > 0 { t.truncate(1024) }
        t
    };
    let ra = make(r);
    let rb = if r.below(2) == 0 { like(r, &ra) } else { make(r) };
    let (mut a, mut b) = (id_table(&ra), id_table(&rb));
    spare(r, &mut a, Kind::Id);
    spare(r, &mut b, Kind::Id);
    if r.below(8) == 0 { damaged(r, &mut a) }
    if r.below(16) == 0 { damaged(r, &mut b) }
    for op in ID_OPS {
        let mut c = Case::of(op);
        c.a = a.clone();
        if op.two_tables() { c.b = b.clone() }
        for _ in 0..if matches!(op, IdInsert | IdContains) { 3 } else { 1 } {
            if matches!(op, IdInsert | IdContains) {
                c.client = match r.below(8) { 0 => number(r), _ => if clients.is_empty() { 0 } else { clients[r.below(clients.len() as u64) as usize] } };
                c.start = clock_near(r, &a) as u64;
            }
            if op == IdInsert { c.end = if r.below(2) == 0 { clock_near(r, &a) } else { (c.start as u32).saturating_add(r.below(20) as u32) } }
            with_room(r, &mut c, see);
        }
    }
}
pub fn random_vector(r: &mut Rng, rows: usize, see: &mut dyn FnMut(&Case)) {
    let many = if rows >= 250 { 250 + r.below(10) as usize } else { r.below(rows as u64 + 1) as usize };
    let clients = random_clients(r, many);
    let make = |r: &mut Rng| vec_table(&clients.iter().filter_map(|&c| if rows < 250 && r.below(4) == 0 { None } else { Some((c, if r.below(2) == 0 { r.below(3) as u32 } else { number(r) as u32 })) }).collect::<Vec<_>>());
    let mut a = make(r);
    let mut b = if r.below(3) == 0 { let mut b = a.clone(); for k in b.ints.iter_mut() { if r.below(8) == 0 { *k = k.wrapping_add(r.below(2) as u32) } } b } else { make(r) };
    spare(r, &mut a, Kind::Vector);
    spare(r, &mut b, Kind::Vector);
    if r.below(8) == 0 { damaged(r, &mut a) }
    if r.below(16) == 0 { damaged(r, &mut b) }
    for op in VEC_OPS {
        let mut c = Case::of(op);
        if op != VecDecode { c.a = a.clone() }
        if op.two_tables() { c.b = b.clone() }
        match op {
            VecGet | VecSetMin | VecSetMax => {
                for _ in 0..3 {
                    c.client = match r.below(4) { 0 => number(r), _ => if clients.is_empty() { 0 } else { clients[r.below(clients.len() as u64) as usize] } };
                    c.start = clock_near(r, &a) as u64;
                    with_room(r, &mut c, see);
                }
            }
            VecEncode => {
                c.at = r.below(3) as usize;
                c.bytes = vec![r.next() as u8; 4000];
                let w = model::answer(&c);
                let need = if w.no == DONE { w.next } else { 8 };
                let len = match r.below(4) { 0 => need.saturating_sub(1), 1 => need, 2 => need + 1, _ => r.below(2 * need as u64 + 2) as usize };
                c.bytes.truncate(len);
                see(&c);
            }
            VecDecode => for _ in 0..3 {
                // pairs in any order, with clients that come again, numbers overlong, and damage
                let mut pairs: Vec<(u64, u32)> = (0..a.n.min(a.longs.len()).min(a.ints.len())).map(|i| (a.longs[i], a.ints[i])).collect();
                for _ in 0..r.below(3) { if !pairs.is_empty() { let i = r.below(pairs.len() as u64) as usize; let j = r.below(pairs.len() as u64) as usize; let p = (pairs[i].0, r.below(300) as u32); pairs.insert(j, p) } }
                if r.below(2) == 0 { for i in (1..pairs.len()).rev() { let j = r.below(i as u64 + 1) as usize; pairs.swap(i, j) } }
                let mut bytes: Vec<u8> = (0..r.below(3)).map(|_| r.next() as u8).collect();
                c.at = bytes.len();
                let declared = match r.below(10) { 0 => pairs.len() as u64 + 1, 1 => (pairs.len() as u64).saturating_sub(1), 2 => 65536, 3 => r.below(70000), _ => pairs.len() as u64 };
                let mut put = |r: &mut Rng, mut x: u64| { loop { let b = (x & 127) as u8; x >>= 7; if x > 0 { bytes.push(b | 128) } else if r.below(60) == 0 { bytes.push(b | 128); bytes.push(0); break } else { bytes.push(b); break } } };
                put(r, declared);
                for p in &pairs { put(r, p.0); put(r, p.1 as u64) }
                for _ in 0..r.below(3) { bytes.push(r.next() as u8) }
                match r.below(6) {
                    0 => { let i = r.below(bytes.len() as u64) as usize; bytes[i] ^= 1 << r.below(8) }
                    1 => { let k = r.below(bytes.len() as u64 + 1) as usize; bytes.truncate(k) }
                    _ => {}
                }
                if r.below(40) == 0 { c.at = bytes.len() + r.below(2) as usize }
                c.bytes = bytes;
                with_room(r, &mut c, see);
            },
            _ => with_room(r, &mut c, see),
        }
    }
}

/// One round of random cases of every kind.
pub fn round(r: &mut Rng, see: &mut dyn FnMut(&Case)) {
    let (rd, wr) = (readers(), writers());
    for _ in 0..400 { random_read(r, &rd, see) }
    for _ in 0..60 { random_write(r, &wr, see) }
    for _ in 0..40 { let k = 1 + r.below(6) as usize; random_range(r, k, see); random_id(r, k, see); random_vector(r, k, see) }
    for _ in 0..4 { let k = 10 + r.below(60) as usize; random_range(r, k, see); random_id(r, k, see); random_vector(r, k, see) }
    match r.below(24) { 0 => random_range(r, 1024, see), 1 => random_id(r, 1024, see), 2 => random_vector(r, 256, see), 3 => random_range(r, 1030, see), _ => {} }
}
