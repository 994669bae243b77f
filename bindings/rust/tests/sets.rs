//! Tables against the standard library's sets and maps, on random small steps.
use izgarmulf::{ClientID, IdRanges, IdTable, Refusal, StateVector, ID, ROW_LIMIT, VECTOR_LIMIT};
use std::cmp::Ordering;
use std::collections::{BTreeMap, BTreeSet};
use std::ops::Range;

/// SplitMix64.
struct Rng(u64);
impl Rng {
    fn next(&mut self) -> u64 {
        self.0 = self.0.wrapping_add(0x9e3779b97f4a7c15);
        let mut z = self.0;
        z = (z ^ (z >> 30)).wrapping_mul(0xbf58476d1ce4e5b9);
        z = (z ^ (z >> 27)).wrapping_mul(0x94d049bb133111eb);
        z ^ (z >> 31)
    }
    fn below(&mut self, n: u32) -> u32 {
        (self.next() % n as u64) as u32
    }
    /// A short range, now and then an empty or a backward one, at the low or the high end.
    fn range(&mut self, base: u32) -> Range<u32> {
        let s = self.below(60);
        let e = (s + self.below(9)).saturating_sub(1);
        base + s..base + e
    }
}
const BASES: [u32; 2] = [0, u32::MAX - 69];

/// The one table of a set: its joined runs.
fn runs(set: &BTreeSet<u32>) -> Vec<Range<u32>> {
    let mut out: Vec<Range<u32>> = vec![];
    for &x in set {
        match out.last_mut() {
            Some(r) if r.end == x => r.end += 1,
            _ => out.push(x..x + 1),
        }
    }
    out
}
fn same(t: &IdRanges, set: &BTreeSet<u32>) {
    let want = runs(set);
    assert_eq!(t.iter().collect::<Vec<_>>(), want);
    assert_eq!(t.len(), want.len());
    assert_eq!(t.is_empty(), set.is_empty());
    assert_eq!(t.clock_start(), set.first().copied());
    assert_eq!(t.clock_end(), set.last().map(|x| x + 1));
}

#[test]
fn ranges_are_sets() {
    let mut r = Rng(1);
    for round in 0..600 {
        let base = BASES[round % 2];
        let (mut t, mut set) = (IdRanges::new(), BTreeSet::new());
        for _ in 0..40 {
            let x = r.range(base);
            let other: Vec<_> = (0..r.below(6)).map(|_| r.range(base)).collect();
            let o = IdRanges::from_ranges(other.clone()).unwrap();
            let oset: BTreeSet<u32> = other.into_iter().flatten().collect();
            same(&o, &oset);
            match r.below(8) {
                0 => { t.remove(x.clone()).unwrap(); for k in x { set.remove(&k); } }
                1 | 2 => { t.merge(&o).unwrap(); set.extend(&oset) }
                3 => { t.exclude(&o).unwrap(); set = &set - &oset }
                4 if r.below(3) == 0 => { t.intersect(&o).unwrap(); set = &set & &oset }
                _ => { t.insert(x.clone()).unwrap(); set.extend(x) }
            }
            same(&t, &set);
            let k = base + r.below(69);
            assert_eq!(t.contains_clock(k), set.contains(&k));
            let rows = runs(&set);
            assert_eq!(t.find_start(k), rows.iter().position(|r| r.end > k));
            let i = r.below(12) as usize;
            assert_eq!(t.get(i), rows.get(i).cloned());
        }
    }
}

#[test]
fn long_ranges_are_sets() {
    let mut r = Rng(2);
    for gap in [2, 4, 40] {
        for _ in 0..20 {
            let make = |r: &mut Rng| {
                let mut at = 0;
                let v: Vec<Range<u32>> = (0..500).map(|_| { let s = at + 1 + r.below(gap); at = s + 1 + r.below(gap); s..at }).collect();
                (IdRanges::from_ranges(v.clone()).unwrap(), v.into_iter().flatten().collect::<BTreeSet<u32>>())
            };
            let ((a, sa), (b, sb)) = (make(&mut r), make(&mut r));
            for (op, want) in [(0, &sa | &sb), (1, &sa - &sb), (2, &sa & &sb)] {
                let mut t = a.clone();
                let got = match op { 0 => t.merge(&b), 1 => t.exclude(&b), _ => t.intersect(&b) };
                let fits = runs(&want).len() <= ROW_LIMIT;
                assert_eq!(got, if fits { Ok(()) } else { Err(Refusal::Full) });
                same(&t, if fits { &want } else { &sa });
            }
        }
    }
}

#[test]
fn a_full_table_refuses_and_keeps() {
    let full = |step: u32| IdRanges::from_ranges((0..ROW_LIMIT as u32).map(|k| step * k..step * k + step - 1)).unwrap();
    let mut t = full(4);
    let before = t.clone();
    assert_eq!(t.insert(5000..5001), Err(Refusal::Full));
    assert_eq!(t.remove(1..2), Err(Refusal::Full));
    assert_eq!(t, before);
    t.insert(3..4).unwrap();
    assert_eq!((t.len(), t.get(0)), (ROW_LIMIT - 1, Some(0..7)));
    assert_eq!(IdRanges::from_ranges((0..1025).map(|k| 2 * k..2 * k + 1)), Err(Refusal::Full));
    // the table after some one of them counts, not the last
    assert_eq!(IdRanges::from_ranges((0..1025).map(|k| 2 * k..2 * k + 1).chain([0..3000])), Err(Refusal::Full));
    assert_eq!(IdRanges::from_ranges([0..3000].into_iter().chain((0..1025).map(|k| 2 * k..2 * k + 1))).unwrap().len(), 1);
}

#[test]
fn id_tables_are_sets() {
    let mut r = Rng(3);
    let clients = [0, 7, 1 << 32, u64::MAX].map(ClientID::new);
    for round in 0..400 {
        let base = BASES[round % 2];
        let mut tables: Vec<(IdTable, BTreeSet<(ClientID, u32)>)> = vec![Default::default(); 3];
        for _ in 0..40 {
            let (i, j) = (r.below(3) as usize, r.below(3) as usize);
            let c = clients[r.below(4) as usize];
            let (b, sb) = tables[j].clone();
            let (t, set) = &mut tables[i];
            match r.below(8) {
                0 => { *t = t.merge(&b.capture().unwrap()).unwrap(); set.extend(sb) }
                1 if r.below(4) == 0 => { *t = t.diff(&b).unwrap(); *set = &*set - &sb }
                2 if r.below(4) == 0 => { *t = t.intersect(&b).unwrap(); *set = &*set & &sb }
                _ => { let x = r.range(base); t.insert_range(c, x.clone()).unwrap(); set.extend(x.map(|k| (c, k))) }
            }
            let mut want = vec![];
            for c in clients {
                let one: BTreeSet<u32> = set.iter().filter(|x| x.0 == c).map(|x| x.1).collect();
                want.extend(runs(&one).into_iter().map(|x| (c, x)));
            }
            assert_eq!(t.iter().collect::<Vec<_>>(), want);
            assert_eq!(t.len(), set.iter().map(|x| x.0).collect::<BTreeSet<_>>().len());
            assert_eq!(t.is_empty(), set.is_empty());
            let k = base + r.below(69);
            assert_eq!(t.contains(&ID::new(c, k)), set.contains(&(c, k)));
            assert_eq!(&IdTable::from_rows(want).unwrap(), &*t);
        }
    }
}

#[test]
fn vectors_are_maps() {
    let mut r = Rng(4);
    for _ in 0..400 {
        let mut both: Vec<(StateVector, BTreeMap<ClientID, u32>)> = vec![Default::default(); 2];
        for _ in 0..40 {
            let i = r.below(2) as usize;
            let c = ClientID::new([1, 2, 300, 1 << 40, u64::MAX][r.below(5) as usize]);
            let k = [0, 1, 2, 200, u32::MAX][r.below(5) as usize];
            let (o, mo) = both[1 - i].clone();
            let (v, m) = &mut both[i];
            match r.below(4) {
                0 => { v.set_min(c, k).unwrap(); m.entry(c).and_modify(|x| *x = k.min(*x)).or_insert(k); }
                1 => { v.set_max(c, k).unwrap(); m.entry(c).and_modify(|x| *x = k.max(*x)).or_insert(k); }
                2 if r.below(4) == 0 => { v.merge(&o).unwrap(); for (c, k) in &mo { m.entry(*c).and_modify(|x| *x = (*k).max(*x)).or_insert(*k); } }
                3 if r.below(20) == 0 => { *v = StateVector::new(); m.clear() }
                _ => {}
            }
            assert_eq!(v.iter().collect::<Vec<_>>(), m.iter().map(|(c, k)| (*c, *k)).collect::<Vec<_>>());
            assert_eq!(v.get(&c), m.get(&c).copied().unwrap_or(0));
            let all: BTreeSet<_> = m.keys().chain(mo.keys()).collect();
            let of = |m: &BTreeMap<ClientID, u32>, c| m.get(c).copied().unwrap_or(0);
            let (less, more) = (all.iter().any(|c| of(m, c) < of(&mo, c)), all.iter().any(|c| of(m, c) > of(&mo, c)));
            assert_eq!(v.partial_cmp(&o), match (less, more) { (true, true) => None, (true, _) => Some(Ordering::Less), (_, true) => Some(Ordering::Greater), _ => Some(Ordering::Equal) });
            let bytes = v.encode();
            assert_eq!(StateVector::decode_at(&bytes, 0), Ok((v.clone(), bytes.len())));
            for cut in 0..bytes.len() {
                assert_eq!(StateVector::decode(&bytes[..cut]), Err(Refusal::End));
            }
        }
    }
    let mut v = StateVector::from_rows((0..VECTOR_LIMIT as u64).map(|c| (ClientID::new(u64::MAX - 255 + c), u32::MAX))).unwrap();
    let bytes = v.encode();
    assert_eq!(bytes.len(), 3842);
    assert_eq!(StateVector::decode(&bytes).unwrap(), v);
    let before = v.clone();
    assert_eq!(v.set_max(ClientID::new(1), 1), Err(Refusal::Full));
    assert_eq!(v, before);
}
