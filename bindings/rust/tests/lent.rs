//! The operations on lent slices against the standard library's sets: any rows, most of which break the rules, any counts, outputs of
//! unequal lengths full of what must go. What is right is worked out here; every element that is left is looked at.
use izgarmulf::lent::{ids, ranges, vectors};
use izgarmulf::{ClientID, Refusal};
use std::collections::{BTreeMap, BTreeSet};

/// SplitMix64.
struct Rng(u64);
impl Rng {
    fn below(&mut self, n: u64) -> u64 {
        self.0 = self.0.wrapping_add(0x9e3779b97f4a7c15);
        let mut z = self.0;
        z = (z ^ (z >> 30)).wrapping_mul(0xbf58476d1ce4e5b9);
        z = (z ^ (z >> 27)).wrapping_mul(0x94d049bb133111eb);
        (z ^ (z >> 31)) % n
    }
    fn below_usize(&mut self, n: usize) -> usize {
        self.below(n as u64) as usize
    }
    fn pick<T: Copy>(&mut self, from: &[T]) -> T {
        from[self.below(from.len() as u64) as usize]
    }
    fn many<T>(&mut self, n: usize, mut f: impl FnMut(&mut Self) -> T) -> Vec<T> {
        (0..n).map(|_| f(self)).collect()
    }
}

type Set = BTreeSet<(u64, u32)>;
type Row = (u64, u32, u32);

/// The one table of a set.
fn table(set: &Set) -> Vec<Row> {
    let mut out: Vec<Row> = vec![];
    for &(c, x) in set {
        match out.last_mut() {
            Some(r) if r.0 == c && r.2 == x => r.2 += 1,
            _ => out.push((c, x, x + 1)),
        }
    }
    out
}
/// The set of rows that keep the rules: they are the table of the set that they hold.
fn set_of(rows: &[Row]) -> Option<Set> {
    if rows.iter().any(|r| r.1 >= r.2) {
        return None;
    }
    let set: Set = rows.iter().flat_map(|&(c, s, e)| (s..e).map(move |x| (c, x))).collect();
    (table(&set) == rows).then_some(set)
}
/// What a routine must say, and the rows that it must leave.
fn right(result: Option<Set>, room: usize) -> (Result<usize, Refusal>, Vec<Row>) {
    match result.map(|s| table(&s)) {
        None => (Err(Refusal::Malformed), vec![]),
        Some(t) if t.len() > room => (Err(Refusal::Full), vec![]),
        Some(t) => (Ok(t.len()), t),
    }
}
fn filled<T: Default + Clone>(front: impl Iterator<Item = T>, len: usize) -> Vec<T> {
    let mut v: Vec<T> = front.collect();
    v.resize(len, T::default());
    v
}
fn combined(op: u64, a: Option<Set>, b: Option<Set>) -> Option<Set> {
    let (a, b) = (a?, b?);
    Some(match op { 0 => &a | &b, 1 => &a - &b, _ => &a & &b })
}

#[test]
fn ranges_in_lent_slices() {
    let mut r = Rng(11);
    let mut seen = [0; 3];
    for _ in 0..60_000 {
        let lent = |r: &mut Rng| {
            let n = r.below_usize(4);
            let more = r.below_usize(3);
            let mut t = r.many(2 * n + more, |r| r.below(12) as u32);
            if r.below(4) > 0 { t.sort() }
            let count = if r.below(6) == 0 { r.pick(&[usize::MAX, 1 << 63, n + 1, n + 2]) } else { n };
            let set = if count > t.len() / 2 { None } else { set_of(&t[..2 * count].chunks(2).map(|p| (0, p[0], p[1])).collect::<Vec<_>>()) };
            (t, count, set)
        };
        let ((a, n, sa), (b, m, sb)) = (lent(&mut r), lent(&mut r));
        let len = r.below_usize(9);
        let mut out = vec![77; len];
        let (s, e) = (r.below(12) as u32, r.below(12) as u32);
        let one: Set = (s..e).map(|x| (0, x)).collect();
        let op = r.below(5);
        let (got, want) = match op {
            0 => (ranges::merge(&a, n, &b, m, &mut out), combined(0, sa, sb)),
            1 => (ranges::exclude(&a, n, &b, m, &mut out), combined(1, sa, sb)),
            2 => (ranges::intersect(&a, n, &b, m, &mut out), combined(2, sa, sb)),
            3 => (ranges::insert(&a, n, s..e, &mut out), combined(0, sa, Some(one))),
            _ => (ranges::remove(&a, n, s..e, &mut out), combined(1, sa, Some(one))),
        };
        let (said, rows) = right(want, len / 2);
        assert_eq!(got, said, "{op} {a:?} {n} {b:?} {m} {s}..{e} into {len}");
        assert_eq!(out, filled(rows.iter().flat_map(|r| [r.1, r.2]), len));
        seen[match said { Ok(_) => 0, Err(Refusal::Full) => 1, Err(_) => 2 }] += 1;
    }
    assert!(seen.iter().all(|n| *n > 1000), "each answer was met: {seen:?}");
}

#[test]
fn ids_in_lent_slices() {
    let mut r = Rng(12);
    let mut seen = [0; 3];
    for _ in 0..60_000 {
        let lent = |r: &mut Rng| {
            let n = r.below_usize(4);
            let mut rows = r.many(n, |r| (r.pick(&[0, 7, u64::MAX]), r.below(8) as u32, r.below(8) as u32));
            if r.below(4) > 0 {
                rows.sort();
                for x in rows.iter_mut() { if x.1 >= x.2 { x.2 = x.1 + 1 } }
            }
            let (mut c, mut s, mut e): (Vec<u64>, Vec<u32>, Vec<u32>) = (rows.iter().map(|x| x.0).collect(), rows.iter().map(|x| x.1).collect(), rows.iter().map(|x| x.2).collect());
            // spare elements, or one short
            match r.below(8) { 0 => { c.pop(); } 1 => { s.pop(); } 2 => { e.pop(); } 3 => c.push(0), 4 => s.push(0), 5 => e.push(0), _ => {} }
            let count = if r.below(8) == 0 { r.pick(&[usize::MAX, 1 << 32, n + 1]) } else { n };
            let set = if count > c.len().min(s.len()).min(e.len()) { None } else { set_of(&rows[..count]) };
            (c, s, e, count, set)
        };
        let ((ac, aa, ae, n, sa), (bc, ba, be, m, sb)) = (lent(&mut r), lent(&mut r));
        let a = ids::Rows { clients: &ac, starts: &aa, ends: &ae, count: n };
        let b = ids::Rows { clients: &bc, starts: &ba, ends: &be, count: m };
        let lens = [r.below_usize(6), r.below_usize(6), r.below_usize(6)];
        let (mut c, mut s, mut e) = (vec![77; lens[0]], vec![77; lens[1]], vec![77; lens[2]]);
        let out = ids::Out { clients: &mut c, starts: &mut s, ends: &mut e };
        let (client, x, y) = (r.pick(&[0, 7, u64::MAX]), r.below(8) as u32, r.below(8) as u32);
        let one: Set = (x..y).map(|k| (client, k)).collect();
        let op = r.below(5);
        let (got, want) = match op {
            0 => (ids::merge(a, b, out), combined(0, sa, sb)),
            1 => (ids::diff(a, b, out), combined(1, sa, sb)),
            2 => (ids::intersect(a, b, out), combined(2, sa, sb)),
            3 => (ids::insert_range(a, ClientID::new(client), x..y, out), combined(0, sa, Some(one))),
            _ => (ids::capture(a, out), sa),
        };
        let (said, rows) = right(want, lens.into_iter().min().unwrap());
        assert_eq!(got, said, "{op} {a:?} {b:?} {client} {x}..{y} into {lens:?}");
        assert_eq!(c, filled(rows.iter().map(|r| r.0), lens[0]));
        assert_eq!(s, filled(rows.iter().map(|r| r.1), lens[1]));
        assert_eq!(e, filled(rows.iter().map(|r| r.2), lens[2]));
        seen[match said { Ok(_) => 0, Err(Refusal::Full) => 1, Err(_) => 2 }] += 1;
    }
    assert!(seen.iter().all(|n| *n > 1000), "each answer was met: {seen:?}");
}

#[test]
fn vectors_in_lent_slices() {
    let mut r = Rng(13);
    let mut seen = [0; 3];
    for _ in 0..60_000 {
        let lent = |r: &mut Rng| {
            let n = r.below_usize(4);
            let mut c = r.many(n, |r| r.pick(&[0, 7, 300, u64::MAX]));
            if r.below(3) > 0 { c.sort(); c.dedup() }
            let n = c.len();
            let mut k = r.many(n, |r| r.pick(&[0, 1, 5, u32::MAX]));
            let count = if r.below(8) == 0 { r.pick(&[usize::MAX, 1 << 32, n + 1]) } else { n };
            match r.below(6) { 0 => { c.pop(); } 1 => { k.pop(); } 2 => c.push(0), 3 => k.push(0), _ => {} }
            let ok = count <= c.len().min(k.len()) && c[..count].windows(2).all(|w| w[0] < w[1]);
            let map: Option<BTreeMap<u64, u32>> = ok.then(|| (0..count).map(|i| (c[i], k[i])).collect());
            (c, k, count, map)
        };
        let ((ac, ak, n, ma), (bc, bk, m, mb)) = (lent(&mut r), lent(&mut r));
        let a = vectors::Rows { clients: &ac, clocks: &ak, count: n };
        let b = vectors::Rows { clients: &bc, clocks: &bk, count: m };
        let lens = [r.below_usize(6), r.below_usize(6)];
        let (mut c, mut k) = (vec![77; lens[0]], vec![77; lens[1]]);
        let out = vectors::Out { clients: &mut c, clocks: &mut k };
        let (client, clock) = (r.pick(&[0, 7, 300, u64::MAX]), r.pick(&[0, 1, 5, u32::MAX]));
        let with = |m: Option<BTreeMap<u64, u32>>, f: fn(u32, u32) -> u32| m.map(|mut m| { m.entry(client).and_modify(|x| *x = f(*x, clock)).or_insert(clock); m });
        let op = r.below(3);
        let (got, want) = match op {
            0 => (vectors::set_min(a, ClientID::new(client), clock, out), with(ma, u32::min)),
            1 => (vectors::set_max(a, ClientID::new(client), clock, out), with(ma, u32::max)),
            _ => (vectors::merge(a, b, out), ma.zip(mb).map(|(mut a, b)| { for (c, k) in b { a.entry(c).and_modify(|x| *x = k.max(*x)).or_insert(k); } a })),
        };
        let (said, rows) = match want {
            None => (Err(Refusal::Malformed), BTreeMap::new()),
            Some(t) if t.len() > lens[0].min(lens[1]) => (Err(Refusal::Full), BTreeMap::new()),
            Some(t) => (Ok(t.len()), t),
        };
        assert_eq!(got, said, "{op} {a:?} {b:?} {client} {clock} into {lens:?}");
        assert_eq!(c, filled(rows.keys().copied(), lens[0]));
        assert_eq!(k, filled(rows.values().copied(), lens[1]));
        seen[match said { Ok(_) => 0, Err(Refusal::Full) => 1, Err(_) => 2 }] += 1;
    }
    assert!(seen.iter().all(|n| *n > 1000), "each answer was met: {seen:?}");
}
