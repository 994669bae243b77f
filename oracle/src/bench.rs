//! How fast: the original, ours through the C boundary, and a copy of the same bytes, on the same inputs in the same process.
//! Each row has 64 different random inputs or more, taken in turn. The ways of a row run in turn too, a pass over all inputs each, and
//! the least time of each counts. Our times include the check of the tables and the zeroing of the output; answers are compared first.
use crate::block::ClientID;
use crate::encoding::read::{Cursor, Read as _};
use crate::encoding::write::Write as _;
use crate::id_set::IdRange;
use crate::ids::{IdMapInner, IdRanges};
use crate::model::Rows as Table;
use crate::original::{id_rows, ids, rows, table};
use crate::ours::boundary::*;
use crate::ours::pace::*;
use crate::rng::Rng;
use crate::state_vector::StateVector;
use crate::updates::{decoder::Decode, encoder::Encode};
use std::cell::RefCell;
use std::hint::black_box as bb;
use std::time::{Duration, Instant};

/// The least number of different inputs of a row.
const INPUTS: usize = 64;
/// How many inputs of n rows: short ones are so many that no branch predictor can learn them all.
fn inputs(n: usize) -> usize { (32768 / n).max(INPUTS) }
/// Room for the most rows of a table.
const ROOM: usize = 1024;

pub struct Bench { pub ms: u64, pub least: usize, places: RefCell<Places>, rng: Rng, pub out: Vec<Line>, pub parts: Vec<(String, f64)>, pub skipped: Vec<String>, pub growth: Vec<(String, Vec<Option<(usize, f64, f64)>>)> }
/// The least times of each race of numbers so far, in their order, in this build and in earlier ones; and which race comes next, if one does.
#[derive(Default)]
struct Places { least: Vec<Vec<f64>>, next: Option<usize> }
/// A measured row, times in ns for one operation.
pub struct Line { pub group: &'static str, pub name: String, pub goal: Option<f64>, pub limit: Option<f64>, pub yrs: f64, pub alone: Option<f64>, pub ours: f64, pub copy: f64, pub peers: Vec<(&'static str, f64)> }

fn timed(f: impl FnOnce()) -> Duration { let t = Instant::now(); f(); t.elapsed() }
type Way<'a> = Box<dyn FnMut() -> Duration + 'a>;

impl Bench {
    pub fn new(ms: u64, seed: u64) -> Bench { Bench { ms, least: 15, places: Default::default(), rng: Rng(seed), out: vec![], parts: vec![], skipped: vec![], growth: vec![] } }
    /// What earlier builds saw, and what is seen now.
    pub fn seen(&mut self, least: Vec<Vec<f64>>) { self.places.get_mut().least = least }
    pub fn all_seen(&self) -> Vec<Vec<f64>> { self.places.borrow().least.clone() }
    fn place(&self, best: &mut Vec<f64>) {
        let mut p = self.places.borrow_mut();
        let Some(i) = p.next else { return };
        p.next = Some(i + 1);
        match p.least.get_mut(i) {
            Some(before) => for (x, y) in best.iter_mut().zip(before) { *y = x.min(*y); *x = *y },
            None => p.least.push(best.clone()),
        }
    }
    /// The least time of each way for one of `per` operations.
    fn race(&self, per: usize, ways: &mut [Way]) -> Vec<f64> { self.rounds(self.least, per, ways) }
    fn rounds(&self, least: usize, per: usize, ways: &mut [Way]) -> Vec<f64> {
        let mut best = vec![f64::MAX; ways.len()];
        for w in ways.iter_mut() { w(); }
        let t = Instant::now();
        let mut rounds = 0;
        while t.elapsed().as_millis() < (self.ms * ways.len() as u64) as u128 || rounds < least {
            for (w, b) in ways.iter_mut().zip(&mut best) { *b = b.min(w().as_nanos() as f64 / per as f64) }
            rounds += 1;
        }
        self.place(&mut best);
        best
    }
    fn line(&mut self, l: Line) {
        let goal = l.goal.map_or("    -".into(), |g| format!("{g:5.2}")) + if l.goal.map_or(true, |g| l.ours / l.yrs <= g) { "  " } else { " *" };
        println!("{:<52} yrs {:>10.2}  alone {:>10}  ours {:>10.2}  copy {:>9.2}  ours/yrs {:>5.2}  goal {goal}{}", l.name, l.yrs, l.alone.map_or("-".into(), |a| format!("{a:.2}")), l.ours, l.copy, l.ours / l.yrs,
            l.peers.iter().map(|(n, t)| format!("  {n} {t:.2}")).collect::<String>());
        self.out.push(l);
    }
}

/// Rows with gaps to `gap` and lengths to `len`.
fn gen(r: &mut Rng, n: usize, gap: u64, len: u64, client: u64) -> Table {
    let mut at = 0;
    (0..n).map(|_| { let s = at + 1 + r.below(gap) as u32; at = s + 1 + r.below(len) as u32; (client, s, at) }).collect()
}
fn flat(t: &Table) -> Vec<u32> { t.iter().flat_map(|&(_, s, e)| [s, e]).collect() }
fn copy<T: Copy>(to: &mut [T], from: &[T]) { to[..from.len()].copy_from_slice(bb(from)) }

const SHAPES: [(&str, u64, u64); 3] = [("sparse", 1000, 10), ("even", 16, 16), ("long", 10, 100)];
const OPS: [&str; 3] = ["merge", "exclude", "intersect"];

fn yrs_op(op: usize, t: &mut IdRange, o: &IdRange) { match op { 0 => t.merge(o), 1 => t.exclude(o), _ => t.intersect(o) } }
#[inline(always)]
fn our_op(op: usize, a: &[u32], b: &[u32], out: &mut [u32]) -> usize {
    let r = match op { 0 => iz_ranges_merge(a, a.len() / 2, b, b.len() / 2, out), 1 => iz_ranges_exclude(a, a.len() / 2, b, b.len() / 2, out), _ => iz_ranges_intersect(a, a.len() / 2, b, b.len() / 2, out) };
    assert!(r.no == 0);
    r.count
}

type Bare = extern "C" fn(*const u8, usize, usize) -> Number;
type Put = extern "C" fn(u64, *mut u8, usize, usize) -> Wrote;
#[inline(never)]
extern "C" fn one_byte(b: *const u8, _: usize, at: usize) -> Number { Number { no: 0, value: unsafe { *b.add(at) } as u64, next: at + 1 } }
#[inline(never)]
extern "C" fn put_byte(v: u64, b: *mut u8, _: usize, at: usize) -> Wrote { unsafe { *b.add(at) = v as u8 } Wrote { no: 0, next: at + 1 } }

impl Bench {
    // ---- numbers
    pub fn numbers(&mut self) {
        const N: usize = 2048;
        let inputs = INPUTS;
        self.places.get_mut().next = Some(0);
        for (m, what) in ["nine in ten one byte", "even, 1 to 5 bytes", "all one byte"].into_iter().enumerate() {
            let r = &mut self.rng;
            let vs: Vec<Vec<u64>> = (0..inputs).map(|_| (0..N).map(|_| match m {
                0 => if r.below(10) < 9 { r.below(128) } else { let bits = 8 + r.below(25); r.next() >> (64 - bits) | 1 << (bits - 1) },
                1 => { let l = 1 + r.below(5); let lo = if l == 1 { 0 } else { 1u64 << (7 * (l - 1)) }; let hi = (1u64 << (7 * l)).min(1 << 32); lo + r.next() % (hi - lo) }
                _ => r.below(128),
            }).collect()).collect();
            let ns: Vec<Vec<u32>> = vs.iter().map(|v| v.iter().map(|&x| x as u32).collect()).collect();
            let bs: Vec<Vec<u8>> = vs.iter().map(|v| { let mut w = Vec::new(); for &x in v { w.write_var(x) } w }).collect();
            if let Ok(d) = std::env::var("BENCH_INPUTS") { for (i, b) in bs.iter().enumerate() { std::fs::write(format!("{d}/numbers-{m}-{i}.bin"), b).unwrap() } }
            let most = bs.iter().map(|b| b.len()).max().unwrap();
            let (mut to, mut to2, mut w) = (vec![0u8; most], vec![0u8; 10 * N], Vec::<u8>::with_capacity(10 * N));
            for (b, v) in bs.iter().zip(&vs) {
                let (mut at, mut at2, mut end) = (0, 0, 0);
                for &x in v {
                    let (p, q) = (iz_read_u64(b, at), iz_read_u32(b, at2));
                    assert_eq!((p.no, p.value, q.no, q.value), (0, x, 0, x));
                    (at, at2) = (p.next, q.next);
                    end = iz_write_u64(x, &mut to2, end).next;
                }
                assert_eq!((at, at2, &to2[..end]), (b.len(), b.len(), &b[..]));
            }
            for ((b, v), n) in bs.iter().zip(&vs).zip(&ns) {
                let want = v.iter().fold(0, |x, y| x ^ y);
                assert_eq!((pace_read_u64(b, N), pace_read_u32(b, N) as u64), (want, want));
                to2.fill(9);
                let end = pace_write_u64(v, &mut to2);
                assert_eq!(&to2[..end], &b[..]);
                to2.fill(9);
                let end = pace_write_u32(n, &mut to2);
                assert_eq!(&to2[..end], &b[..]);
            }
            let per = inputs * N;
            macro_rules! yrs { ($t:ty) => { Box::new(|| timed(|| for b in &bs { let mut c = Cursor::new(bb(b)); let mut s: $t = 0; for _ in 0..N { s ^= c.read_var::<$t>().unwrap() } bb(s); })) as Way } }
            macro_rules! ours { ($f:ident) => { Box::new(|| timed(|| for b in &bs { let b = bb(&b[..]); let (mut at, mut s) = (0, 0); for _ in 0..N { let r = $f(b, at); assert!(r.no == 0); s ^= r.value; at = r.next } bb(s); })) as Way } }
            macro_rules! inside { ($f:ident) => { Box::new(|| timed(|| for b in &bs { bb($f(bb(&b[..]), N)); })) as Way } }
            let read = self.race(per, &mut [yrs!(u64), ours!(iz_read_u64), inside!(pace_read_u64), yrs!(u32), ours!(iz_read_u32), inside!(pace_read_u32), Box::new(|| timed(|| for b in &bs { copy(&mut to, b); bb(&mut to); }))]);
            let mut w2: Vec<u8> = Vec::with_capacity(10 * N);
            let (mut o1, mut o2, mut o3, mut o4) = (vec![0u8; 10 * N], vec![0u8; 10 * N], vec![0u8; 10 * N], vec![0u8; 10 * N]);
            let write = self.race(per, &mut [
                Box::new(|| timed(|| for v in &vs { w.clear(); for &x in bb(v) { w.write_var(x) } bb(&w); })),
                Box::new(|| timed(|| for v in &vs { let o = bb(&mut o1[..]); let mut at = 0; for &x in bb(v) { let r = iz_write_u64(x, o, at); assert!(r.no == 0); at = r.next } bb(at); })),
                Box::new(|| timed(|| for v in &vs { bb(pace_write_u64(bb(v), bb(&mut o3[..]))); })),
                Box::new(|| timed(|| for v in &ns { w2.clear(); for &x in bb(v) { w2.write_var(x) } bb(&w2); })),
                Box::new(|| timed(|| for v in &ns { let o = bb(&mut o2[..]); let mut at = 0; for &x in bb(v) { let r = iz_write_u32(x, o, at); assert!(r.no == 0); at = r.next } bb(at); })),
                Box::new(|| timed(|| for v in &ns { bb(pace_write_u32(bb(v), bb(&mut o4[..]))); })),
            ]);
            if m == 2 {
                // the least that a call through the boundary can cost: one byte, and the answer; no test, no loop
                let (f, g): (Bare, Put) = (bb(one_byte), bb(put_byte));
                let p = self.race(per, &mut [
                    Box::new(|| timed(|| for b in &bs { let b = bb(&b[..]); let (mut at, mut s) = (0, 0); for _ in 0..N { let r = f(b.as_ptr(), b.len(), at); s ^= r.value; at = r.next } bb(s); })),
                    Box::new(|| timed(|| for v in &vs { let o = bb(&mut to[..]); let mut at = 0; for &x in bb(v) { at = g(x, o.as_mut_ptr(), o.len(), at).next } bb(at); })),
                ]);
                self.parts.push(("read of one byte: a call that only loads it and answers".into(), p[0]));
                self.parts.push(("write of one byte: a call that only stores it and answers".into(), p[1]));
            }
            let peers = crate::bench::peers::numbers(self, &bs, &vs, N);
            for (part, t) in peers.2 { self.parts.push((format!("write u64, {what}: {part}"), t)) }
            // The goal is for the loop inside, as it was first measured; a call a number is shown beside it.
            for (what, goal, times, peers) in [(format!("read {what}"), [0.65, 0.80, 0.50][m], &read, peers.0), (format!("write {what}"), 0.90, &write, peers.1)] {
                let (verb, what) = what.split_once(' ').unwrap();
                for (i, (t, peers)) in ["u64", "u32"].into_iter().zip(peers).enumerate() {
                    let name = format!("{verb} {t}, {what}");
                    let line = |way: &str, goal, ours, peers| Line { group: "Numbers", name: format!("{name}, {way}"), goal, limit: None, yrs: times[3 * i], alone: None, ours, copy: read[6], peers };
                    self.line(line("the loop inside", Some(goal), times[3 * i + 2], peers));
                    self.line(line("a call a number", None, times[3 * i + 1], vec![]));
                }
            }
        }
        self.places.get_mut().next = None;
    }

    // ---- range tables
    /// Pairs of tables whose union, or difference, or intersection has at most 1,024 rows; none if that is rare.
    fn pairs(&mut self, op: usize, n: usize, gap: u64, len: u64, inputs: usize) -> Option<Vec<(Table, Table)>> {
        let r = &mut self.rng;
        (0..inputs).map(|_| (0..100).find_map(|_| {
            let p = (gen(r, n, gap, len, 0), gen(r, n, gap, len, 0));
            let mut t = table(&p.0);
            yrs_op(op, &mut t, &table(&p.1));
            (t.len() <= ROOM).then_some(p)
        })).collect()
    }
    fn set_op(&mut self, op: usize, n: usize, shape: (&str, u64, u64), goal: Option<f64>, show: bool) -> (f64, f64) {
        let inputs = inputs(n);
        let Some(ps) = self.pairs(op, n, shape.1, shape.2, inputs) else {
            println!("{}, {n} + {n} rows, {}: the right result has more than 1,024 rows", OPS[op], shape.0);
            self.skipped.push(format!("{} of {n} + {n} rows, {}", OPS[op], shape.0));
            return (f64::NAN, f64::NAN);
        };
        let fs: Vec<(Vec<u32>, Vec<u32>)> = ps.iter().map(|p| (flat(&p.0), flat(&p.1))).collect();
        let ts: Vec<(IdRange, IdRange)> = ps.iter().map(|p| (table(&p.0), table(&p.1))).collect();
        let room = if n < 64 { 4 * n } else { 2 * ROOM };
        let (mut out, mut to) = (vec![7u32; room], vec![0u32; 4 * n]);
        let mut kept = 0;
        for (f, t) in fs.iter().zip(&ts) {
            let mut want = t.0.clone();
            yrs_op(op, &mut want, &t.1);
            out.fill(7);
            let k = our_op(op, &f.0, &f.1, &mut out);
            assert_eq!(&out[..2 * k], &flat(&rows(&want))[..]);
            assert!(out[2 * k..].iter().all(|&x| x == 0));
            kept += k;
        }
        let t = self.race(inputs, &mut [
            Box::new(|| timed(|| for t in &ts { let mut c = bb(&t.0).clone(); yrs_op(op, &mut c, bb(&t.1)); bb(c); })),
            Box::new(|| { let mut cs: Vec<IdRange> = ts.iter().map(|t| t.0.clone()).collect(); let d = timed(|| for (c, t) in cs.iter_mut().zip(&ts) { yrs_op(op, c, bb(&t.1)) }); bb(cs); d }),
            Box::new(|| timed(|| for f in &fs { bb(our_op(op, bb(&f.0), bb(&f.1), &mut out)); })),
            Box::new(|| timed(|| for f in &fs { copy(&mut to, &f.0); copy(&mut to[2 * n..], &f.1); bb(&mut to); })),
        ]);
        if show {
            let peers = peers::sets(self, op, &fs, &ts);
            self.line(Line { group: "Range tables", name: format!("{}, {n} + {n} rows, {}", OPS[op], shape.0), goal, limit: None, yrs: t[0], alone: Some(t[1]), ours: t[2], copy: t[3], peers });
            if n == 512 || n == 8 {
                // what a part of it costs: both checks, and the zeroing of what the result leaves of the output
                let mut z = vec![0u32; room];
                let k = 2 * kept / inputs;
                let p = self.race(inputs, &mut [
                    Box::new(|| timed(|| for f in &fs { bb(iz_ranges_is_empty(bb(&f.0), n)); bb(iz_ranges_is_empty(bb(&f.1), n)); })),
                    Box::new(|| timed(|| for _ in &fs { bb(&mut z[bb(k)..]).fill(0); bb(&mut z); })),
                ]);
                self.parts.push((format!("{}, {n} + {n} rows, {}: both checks", OPS[op], shape.0), p[0]));
                self.parts.push((format!("{}, {n} + {n} rows, {}: zeroing {} elements", OPS[op], shape.0, room - k), p[1]));
            }
        }
        (t[0], t[2])
    }
    pub fn ranges(&mut self) {
        let goals = [[0.50, 0.35, 0.40], [0.55, 0.45, 0.50], [0.80, 0.50, 0.55]];
        for op in 0..3 { for n in [512, 1024] { for (s, shape) in SHAPES.into_iter().enumerate() {
            self.set_op(op, n, shape, Some(goals[op][s]), true);
        } } }
        for op in [0, 2] { self.set_op(op, 8, SHAPES[1], Some(0.35), true); }
    }

    // ---- one range in, one out; a list of ranges; questions
    fn edit(&mut self, put: bool, n: usize, show: bool) -> (f64, f64) {
        let r = &mut self.rng;
        let ps: Vec<(Table, u32, u32)> = (0..inputs(n)).map(|_| { let t = gen(r, n, 16, 16, 0); let s = r.below(t[n - 1].2 as u64) as u32; (t, s, s + 1 + r.below(8) as u32) }).collect();
        let fs: Vec<(Vec<u32>, u32, u32)> = ps.iter().map(|p| (flat(&p.0), p.1, p.2)).collect();
        let ts: Vec<IdRange> = ps.iter().map(|p| table(&p.0)).collect();
        let (mut out, mut to) = (vec![7u32; 2 * (n + 1)], vec![0u32; 2 * n]);
        let ours = |f: &(Vec<u32>, u32, u32), out: &mut [u32]| { let r = if put { iz_ranges_insert(&f.0, n, f.1, f.2, out) } else { iz_ranges_remove(&f.0, n, f.1, f.2, out) }; assert!(r.no == 0); r.count };
        let yrs = |t: &mut IdRange, f: &(Vec<u32>, u32, u32)| if put { t.insert(f.1..f.2) } else { t.remove(f.1..f.2) };
        for (f, t) in fs.iter().zip(&ts) {
            let mut want = t.clone();
            yrs(&mut want, f);
            let k = ours(f, &mut out);
            assert_eq!(&out[..2 * k], &flat(&rows(&want))[..]);
        }
        let t = self.race(fs.len(), &mut [
            Box::new(|| timed(|| for (f, t) in fs.iter().zip(&ts) { let mut c = bb(t).clone(); yrs(&mut c, bb(f)); bb(c); })),
            Box::new(|| { let mut cs = ts.clone(); let d = timed(|| for (c, f) in cs.iter_mut().zip(&fs) { yrs(c, bb(f)) }); bb(cs); d }),
            Box::new(|| timed(|| for f in &fs { bb(ours(bb(f), &mut out)); })),
            Box::new(|| timed(|| for f in &fs { copy(&mut to, &f.0); bb(&mut to); })),
            Box::new(|| timed(|| for f in &fs { bb(iz_ranges_is_empty(bb(&f.0), n)); })),
        ]);
        let name = format!("{} at random, {n} rows", if put { "insert" } else { "remove" });
        if show {
            self.parts.push((format!("{name}: the check"), t[4]));
            self.line(Line { group: "Range tables", name, goal: Some(1.5), limit: None, yrs: t[0], alone: Some(t[1]), ours: t[2], copy: t[3], peers: vec![] });
        }
        (t[0], t[2])
    }
    fn list(&mut self, sorted: bool, n: usize, show: bool) -> (f64, f64) {
        let r = &mut self.rng;
        let inputs = inputs(n);
        let ps: Vec<Table> = (0..inputs).map(|_| { let mut t = gen(r, n, 16, 16, 0); if !sorted { for i in (1..n).rev() { t.swap(i, r.below(i as u64 + 1) as usize) } } t }).collect();
        let fs: Vec<Vec<u32>> = ps.iter().map(flat).collect();
        let (mut out, mut to) = (vec![7u32; 2 * n], vec![0u32; 2 * n]);
        let yrs = |f: &[u32]| IdRanges::from_ranges(f.chunks_exact(2).map(|p| p[0]..p[1]));
        for f in &fs {
            let k = iz_ranges_from_ranges(f, n, &mut out);
            assert_eq!((k.no, &out[..2 * k.count]), (0, &flat(&rows(&yrs(f)))[..]));
        }
        let t = self.race(inputs, &mut [
            Box::new(|| timed(|| for f in &fs { bb(yrs(bb(f))); })),
            Box::new(|| timed(|| for f in &fs { assert!(iz_ranges_from_ranges(bb(f), n, &mut out).no == 0); })),
            Box::new(|| timed(|| for f in &fs { copy(&mut to, f); bb(&mut to); })),
        ]);
        if show { self.line(Line { group: "Range tables", name: format!("from_ranges of {n}, {}", if sorted { "in order" } else { "at random" }), goal: Some(1.0), limit: None, yrs: t[0], alone: None, ours: t[1], copy: t[2], peers: vec![] }) }
        (t[0], t[1])
    }
    /// The original's, ours, the check alone.
    fn ask(&mut self, start: bool, n: usize, show: bool) -> (f64, f64, f64) {
        let r = &mut self.rng;
        let ps: Vec<(Table, Vec<u32>)> = (0..INPUTS).map(|_| { let t = gen(r, n, 16, 16, 0); let top = t[n - 1].2 as u64; (t, (0..64).map(|_| r.below(top) as u32).collect()) }).collect();
        let fs: Vec<(Vec<u32>, Vec<u32>)> = ps.iter().map(|p| (flat(&p.0), p.1.clone())).collect();
        let ts: Vec<IdRange> = ps.iter().map(|p| table(&p.0)).collect();
        for (f, t) in fs.iter().zip(&ts) { for &k in &f.1 {
            assert_eq!(iz_ranges_contains_clock(&f.0, n, k).value, t.contains_clock(k));
            let i = iz_ranges_find_start(&f.0, n, k);
            assert_eq!(i.some.then_some(i.value), t.find_start(k));
        } }
        let mut to = vec![0u32; 2 * n];
        let t = self.race(INPUTS * 64, &mut [
            Box::new(|| timed(|| for (f, t) in fs.iter().zip(&ts) { for &k in &f.1 { if start { bb(bb(t).find_start(k)); } else { bb(bb(t).contains_clock(k)); } } })),
            Box::new(|| timed(|| for f in &fs { for &k in &f.1 { if start { bb(iz_ranges_find_start(bb(&f.0), n, k)); } else { bb(iz_ranges_contains_clock(bb(&f.0), n, k)); } } })),
            Box::new(|| timed(|| for f in &fs { for _ in &f.1 { bb(iz_ranges_is_empty(bb(&f.0), n)); } })),
            Box::new(|| timed(|| for f in &fs { for _ in &f.1 { copy(&mut to, &f.0); bb(&mut to); } })),
        ]);
        if show {
            let name = format!("{}, {n} rows", if start { "find_start" } else { "contains_clock" });
            self.parts.push((format!("{name}: the check"), t[2]));
            self.line(Line { group: "Range tables", name, goal: None, limit: if start { None } else { Some(t[2] + 60.0) }, yrs: t[0], alone: None, ours: t[1], copy: t[3], peers: vec![] });
        }
        (t[0], t[1], t[2])
    }
    pub fn edits(&mut self) {
        self.edit(true, 1023, true);
        self.edit(false, 1023, true);
        self.list(true, 1024, true);
        self.list(false, 1024, true);
        self.ask(false, 1024, true);
        self.ask(true, 1024, true);
    }

    // ---- id tables
    fn id_op(&mut self, op: usize, clients: usize, each: usize, goal: Option<f64>, show: bool) -> (f64, f64) {
        let yrs = |op: usize, a: &IdMapInner<()>, b: &IdMapInner<()>| match op { 0 => a.merge(b), 1 => a.diff(b), _ => a.intersect(b) };
        let r = &mut self.rng;
        let inputs = inputs(clients * each);
        let ps: Vec<(Table, Table)> = (0..inputs).map(|_| loop {
            let mut cs: Vec<u64> = (0..clients).map(|_| r.below(1 << 32)).collect();
            cs.sort();
            let mut make = || -> Table { cs.iter().flat_map(|&c| gen(r, each, 16, 16, c)).collect() };
            let p = (make(), make());
            if id_rows(&yrs(op, &ids(&p.0), &ids(&p.1))).len() <= ROOM { break p }
        }).collect();
        struct Cols { c: Vec<u64>, s: Vec<u32>, e: Vec<u32> }
        let cols = |t: &Table| Cols { c: t.iter().map(|r| r.0).collect(), s: t.iter().map(|r| r.1).collect(), e: t.iter().map(|r| r.2).collect() };
        let fs: Vec<(Cols, Cols)> = ps.iter().map(|p| (cols(&p.0), cols(&p.1))).collect();
        let ts: Vec<_> = ps.iter().map(|p| (ids(&p.0), ids(&p.1))).collect();
        let n = clients * each;
        let room = ROOM.min(2 * n);
        let mut out = Cols { c: vec![7; room], s: vec![7; room], e: vec![7; room] };
        let mut to = Cols { c: vec![7; 2 * n], s: vec![7; 2 * n], e: vec![7; 2 * n] };
        let ours = |f: &(Cols, Cols), o: &mut Cols| {
            let (a, b) = (&f.0, &f.1);
            let r = match op {
                0 => iz_ids_merge(&a.c, &a.s, &a.e, n, &b.c, &b.s, &b.e, n, &mut o.c, &mut o.s, &mut o.e),
                1 => iz_ids_diff(&a.c, &a.s, &a.e, n, &b.c, &b.s, &b.e, n, &mut o.c, &mut o.s, &mut o.e),
                _ => iz_ids_intersect(&a.c, &a.s, &a.e, n, &b.c, &b.s, &b.e, n, &mut o.c, &mut o.s, &mut o.e),
            };
            assert!(r.no == 0);
            r.count
        };
        for (f, t) in fs.iter().zip(&ts) {
            let want = id_rows(&yrs(op, &t.0, &t.1));
            let k = ours(f, &mut out);
            assert_eq!((0..k).map(|i| (out.c[i], out.s[i], out.e[i])).collect::<Table>(), want);
        }
        let t = self.race(inputs, &mut [
            Box::new(|| timed(|| for t in &ts { bb(yrs(op, bb(&t.0), bb(&t.1))); })),
            Box::new(|| { let mut cs: Vec<IdMapInner<()>> = ts.iter().map(|t| t.0.clone()).collect(); let d = timed(|| for (c, t) in cs.iter_mut().zip(&ts) { match op { 0 => c.merge_with(bb(&t.1)), 1 => c.diff_with(bb(&t.1)), _ => c.intersect_with(bb(&t.1)) } }); bb(cs); d }),
            Box::new(|| timed(|| for f in &fs { bb(ours(bb(f), &mut out)); })),
            Box::new(|| timed(|| for f in &fs { for (t, at) in [(&f.0, 0), (&f.1, n)] { copy(&mut to.c[at..], &t.c); copy(&mut to.s[at..], &t.s); copy(&mut to.e[at..], &t.e); } bb(&mut to); })),
            Box::new(|| timed(|| for f in &fs { for t in [&f.0, &f.1] { bb(iz_ids_is_empty(bb(&t.c), &t.s, &t.e, n)); } })),
        ]);
        if show {
            let name = format!("{}, {clients} clients of {each} rows a side", ["id merge", "id diff", "id intersect"][op]);
            self.parts.push((format!("{name}: both checks"), t[4]));
            self.line(Line { group: "Id tables", name, goal, limit: None, yrs: t[0], alone: Some(t[1]), ours: t[2], copy: t[3], peers: vec![] });
        }
        (t[0], t[2])
    }
    pub fn ids(&mut self) { for (op, goal) in [0.45, 0.40, 0.40].into_iter().enumerate() { self.id_op(op, 64, 16, Some(goal), true); } }

    // ---- state vectors
    /// Two vectors of `n` clients of which `shared` are in both: merge, decode, encode, compare.
    fn vector(&mut self, n: usize, shared: usize, show: bool) -> [(f64, f64); 4] {
        let r = &mut self.rng;
        let inputs = inputs(n);
        type V = Vec<(u64, u32)>;
        let ps: Vec<(V, V)> = (0..inputs).map(|_| {
            let mut seen = std::collections::BTreeSet::new();
            while seen.len() < 2 * n - shared { seen.insert(r.below(1 << 32)); }
            let mut all: Vec<u64> = seen.into_iter().collect();
            for i in (1..all.len()).rev() { all.swap(i, r.below(i as u64 + 1) as usize) }
            let mut make = |cs: &[u64]| { let mut v: V = cs.iter().map(|&c| (c, r.below(1 << 20) as u32)).collect(); v.sort(); v };
            (make(&all[..n]), make(&all[n - shared..]))
        }).collect();
        let vector = |v: &V| -> StateVector { v.iter().map(|&(c, k)| (ClientID::new(c), k)).collect() };
        let cols = |v: &V| (v.iter().map(|r| r.0).collect::<Vec<u64>>(), v.iter().map(|r| r.1).collect::<Vec<u32>>());
        let fs: Vec<_> = ps.iter().map(|p| (cols(&p.0), cols(&p.1))).collect();
        let ts: Vec<(StateVector, StateVector)> = ps.iter().map(|p| (vector(&p.0), vector(&p.1))).collect();
        let bs: Vec<Vec<u8>> = ts.iter().map(|t| crate::original::sorted(&t.0.encode_v1())).collect();
        if let (Ok(d), 256) = (std::env::var("BENCH_INPUTS"), n) { for (i, b) in bs.iter().take(INPUTS).enumerate() { std::fs::write(format!("{d}/vector-{i}.bin"), b).unwrap() } }
        let room = (2 * n).min(256);
        let (mut oc, mut ok, mut o2c, mut o2k, mut buf) = (vec![7u64; room], vec![7u32; room], vec![7u64; 256], vec![7u32; 256], vec![9u8; 3842]);
        let (mut tc, mut tk, mut tb) = (vec![0u64; 2 * n], vec![0u32; 2 * n], vec![0u8; 4000]);
        for (f, (t, b)) in fs.iter().zip(ts.iter().zip(&bs)) {
            let mut want = t.0.clone();
            want.merge(t.1.clone());
            let k = iz_vector_merge(&f.0.0, &f.0.1, n, &f.1.0, &f.1.1, n, &mut oc, &mut ok);
            assert_eq!((k.no, vector(&(0..k.count).map(|i| (oc[i], ok[i])).collect())), (0, want));
            let k = iz_vector_decode(b, 0, &mut o2c, &mut o2k);
            assert_eq!((k.no, k.next, &o2c[..k.count], &o2k[..k.count]), (0, b.len(), &f.0.0[..], &f.0.1[..]));
            let k = iz_vector_encode(&f.0.0, &f.0.1, n, &mut buf, 0);
            assert_eq!((k.no, &buf[..k.next]), (0, &b[..]));
        }
        let copied = self.race(inputs, &mut [
            Box::new(|| timed(|| for f in &fs { copy(&mut tc, &f.0.0); copy(&mut tk, &f.0.1); copy(&mut tc[n..], &f.1.0); copy(&mut tk[n..], &f.1.1); bb((&mut tc, &mut tk)); })),
            Box::new(|| timed(|| for b in &bs { copy(&mut tb, b); bb(&mut tb); })),
        ]);
        let merge = self.race(inputs, &mut [
            Box::new(|| timed(|| for t in &ts { let mut a = bb(&t.0).clone(); a.merge(bb(&t.1).clone()); bb(a); })),
            Box::new(|| { let mut cs = ts.clone(); let mut left = Vec::with_capacity(inputs); let d = timed(|| for (a, b) in cs.drain(..) { let mut a = a; a.merge(b); left.push(a) }); bb(left); d }),
            Box::new(|| timed(|| for f in &fs { assert!(iz_vector_merge(bb(&f.0.0), &f.0.1, n, bb(&f.1.0), &f.1.1, n, &mut oc, &mut ok).no == 0); })),
        ]);
        let decode = self.race(inputs, &mut [
            Box::new(|| timed(|| for b in &bs { bb(StateVector::decode_v1(bb(b)).unwrap()); })),
            Box::new(|| timed(|| for b in &bs { assert!(iz_vector_decode(bb(b), 0, &mut o2c, &mut o2k).no == 0); })),
        ]);
        let encode = self.race(inputs, &mut [
            Box::new(|| timed(|| for t in &ts { bb(bb(&t.0).encode_v1()); })),
            Box::new(|| timed(|| for f in &fs { assert!(iz_vector_encode(bb(&f.0.0), &f.0.1, n, &mut buf, 0).no == 0); })),
        ]);
        let cmp = self.race(inputs, &mut [
            Box::new(|| timed(|| for t in &ts { bb(bb(&t.0).partial_cmp(bb(&t.0))); })),
            Box::new(|| timed(|| for f in &fs { assert!(iz_vector_partial_cmp(bb(&f.0.0), &f.0.1, n, bb(&f.0.0), &f.0.1, n).no == 0); })),
        ]);
        if show {
            let at = if shared == n { format!("{n} clients a side") } else { format!("{n} clients a side, {shared} shared") };
            let line = |name: String, goal, t: &[f64], copy| Line { group: "State vectors", name, goal: Some(goal), limit: None, yrs: t[0], alone: if t.len() > 2 { Some(t[1]) } else { None }, ours: t[t.len() - 1], copy, peers: vec![] };
            self.line(line(format!("merge, {at}"), 0.45, &merge, copied[0]));
            if shared == n {
                self.line(line(format!("decode of rising clients, {n} clients"), 0.30, &decode, copied[1]));
                self.line(line(format!("encode, {n} clients"), 0.70, &encode, copied[1]));
                self.line(line(format!("compare, equal, {at}"), 0.20, &cmp, copied[0]));
            }
        }
        [(merge[0], merge[2]), (decode[0], decode[1]), (encode[0], encode[1]), (cmp[0], cmp[1])]
    }
    pub fn vectors(&mut self) {
        self.vector(256, 256, true);
        self.vector(192, 128, true);
    }

    // ---- how cost grows
    pub fn grow(&mut self) {
        let sizes = [16, 64, 256, 1024];
        for op in 0..3 {
            let v = sizes.map(|n| { let t = self.set_op(op, n, SHAPES[1], None, false); Some((2 * n, t.0, t.1)) });
            self.growth.push((format!("{} of two tables, even", OPS[op]), v.to_vec()));
        }
        for put in [true, false] {
            let v = sizes.map(|n| { let n = n.min(1023); let t = self.edit(put, n, false); Some((n, t.0, t.1)) });
            self.growth.push((format!("{} at random", if put { "insert" } else { "remove" }), v.to_vec()));
        }
        for sorted in [true, false] {
            let v = sizes.map(|n| { let t = self.list(sorted, n, false); Some((n, t.0, t.1)) });
            self.growth.push((format!("from_ranges, {}", if sorted { "in order" } else { "at random" }), v.to_vec()));
        }
        let asked = sizes.map(|n| self.ask(false, n, false));
        self.growth.push(("contains_clock".into(), (0..4).map(|i| Some((sizes[i], asked[i].0, asked[i].1))).collect()));
        self.growth.push(("the check alone".into(), (0..4).map(|i| Some((sizes[i], f64::NAN, asked[i].2))).collect()));
        self.growth.push(("contains_clock less its check".into(), (0..4).map(|i| Some((sizes[i], f64::NAN, (asked[i].1 - asked[i].2).max(0.0)))).collect()));
        for op in 0..3 {
            let v = sizes.map(|n| { let t = self.id_op(op, n / 16, 16, None, false); Some((2 * n, t.0, t.1)) });
            self.growth.push((format!("{} of two tables, 16 rows a client", ["id merge", "id diff", "id intersect"][op]), v.to_vec()));
        }
        let vs = [16, 64, 256].map(|n| (n, self.vector(n, n, false)));
        for (i, name) in ["vector merge", "vector decode", "vector encode", "vector compare"].into_iter().enumerate() {
            let mut v: Vec<_> = vs.iter().map(|(n, t)| Some((*n, t[i].0, t[i].1))).collect();
            v.push(None);
            self.growth.push((name.into(), v));
        }
        for (name, v) in &self.growth { println!("{name:<44} {}", v.iter().map(|x| x.map_or("-".into(), |(n, y, o)| format!("{o:.0} ns ({:.2} a row{})", o / n as f64, if y.is_nan() { String::new() } else { format!(", {:.2} of yrs", o / y) }))).collect::<Vec<_>>().join("  ")) }
    }
}

/// Other libraries on the same inputs, where they are linked.
pub mod peers {
    use super::*;
    type Named = Vec<(&'static str, f64)>;

    #[cfg(not(peers))]
    pub fn numbers(_: &Bench, _: &[Vec<u8>], _: &[Vec<u64>], _: usize) -> ([Named; 2], [Named; 2], Named) { Default::default() }
    #[cfg(not(peers))]
    pub fn sets(_: &Bench, _: usize, _: &[(Vec<u32>, Vec<u32>)], _: &[(IdRange, IdRange)]) -> Named { vec![] }

    #[cfg(peers)]
    use std::ffi::c_void as V;
    #[cfg(peers)]
    extern "C" {
        fn ro_make(t: *const u32, n: usize) -> *mut V; fn ro_card(r: *mut V) -> u64; fn ro_op(op: i32, a: *mut V, b: *mut V) -> *mut V; fn ro_free(r: *mut V);
        fn icl_make(t: *const u32, n: usize) -> *mut V; fn icl_op(op: i32, a: *mut V, b: *mut V) -> usize; fn icl_free(a: *mut V);
        fn pb_dec64(b: *const u8, l: usize, n: usize) -> u64; fn pb_dec32(b: *const u8, l: usize, n: usize) -> u32;
        fn pb_enc64(v: *const u64, n: usize, o: *mut u8) -> usize; fn pb_enc32(v: *const u64, n: usize, o: *mut u8) -> usize;
        fn pb_room64(v: *const u64, n: usize, o: *mut u8, l: usize) -> usize; fn pb_room32(v: *const u64, n: usize, o: *mut u8, l: usize) -> usize;
        fn put_room(v: *const u64, n: usize, o: *mut u8, l: usize) -> usize; fn put_blind(v: *const u64, n: usize, o: *mut u8) -> usize;
    }
    #[cfg(peers)]
    pub fn numbers(m: &Bench, bs: &[Vec<u8>], vs: &[Vec<u64>], n: usize) -> ([Named; 2], [Named; 2], Named) {
        let [mut o, mut o2, mut o3, mut o4] = [(); 4].map(|_| vec![0u8; 10 * n + 16]);
        let l = o.len();
        unsafe {
            for (b, v) in bs.iter().zip(vs) {
                let want = v.iter().fold(0, |x, y| x ^ y);
                assert_eq!((pb_dec64(b.as_ptr(), b.len(), n), pb_dec32(b.as_ptr(), b.len(), n) as u64), (want, want));
                let k = pb_enc64(v.as_ptr(), n, o.as_mut_ptr());
                assert_eq!(&o[..k], &b[..]);
                let k = pb_room64(v.as_ptr(), n, o.as_mut_ptr(), l);
                assert_eq!(&o[..k], &b[..]);
            }
            let t = m.race(bs.len() * n, &mut [
                Box::new(|| timed(|| for b in bs { bb(pb_dec64(b.as_ptr(), b.len(), n)); })),
                Box::new(|| timed(|| for b in bs { bb(pb_dec32(b.as_ptr(), b.len(), n)); })),
                Box::new(|| timed(|| for v in vs { bb(pb_enc64(v.as_ptr(), n, o.as_mut_ptr())); })),
                Box::new(|| timed(|| for v in vs { bb(pb_enc32(v.as_ptr(), n, o2.as_mut_ptr())); })),
                Box::new(|| timed(|| for v in vs { bb(pb_room64(v.as_ptr(), n, o3.as_mut_ptr(), l)); })),
                Box::new(|| timed(|| for v in vs { bb(pb_room32(v.as_ptr(), n, o4.as_mut_ptr(), l)); })),
            ]);
            let mut parts = vec![];
            if bs[0].len() == n {
                let p = m.race(bs.len() * n, &mut [
                    Box::new(|| timed(|| for v in vs { bb(put_room(v.as_ptr(), n, o.as_mut_ptr(), l)); })),
                    Box::new(|| timed(|| for v in vs { bb(put_blind(v.as_ptr(), n, o2.as_mut_ptr())); })),
                ]);
                parts = vec![("a plain loop in C++ for such numbers alone, with a test of the room", p[0]), ("the same loop without it", p[1])];
            }
            let w = |blind, room| vec![("protobuf", blind), ("protobuf with its test of the room", room)];
            ([vec![("protobuf", t[0])], vec![("protobuf", t[1])]], [w(t[2], t[4]), w(t[3], t[5])], parts)
        }
    }
    #[cfg(peers)]
    pub fn sets(m: &Bench, op: usize, fs: &[(Vec<u32>, Vec<u32>)], ts: &[(IdRange, IdRange)]) -> Named {
        unsafe {
            let rs: Vec<_> = fs.iter().map(|f| (ro_make(f.0.as_ptr(), f.0.len() / 2), ro_make(f.1.as_ptr(), f.1.len() / 2))).collect();
            let is: Vec<_> = fs.iter().map(|f| (icl_make(f.0.as_ptr(), f.0.len() / 2), icl_make(f.1.as_ptr(), f.1.len() / 2))).collect();
            for ((r, i), t) in rs.iter().zip(&is).zip(ts) {
                let mut want = t.0.clone();
                yrs_op(op, &mut want, &t.1);
                let x = ro_op(op as i32, r.0, r.1);
                assert_eq!(ro_card(x), want.iter().map(|(r, _)| (r.end - r.start) as u64).sum::<u64>());
                ro_free(x);
                assert!(op == 2 || icl_op(op as i32, i.0, i.1) == want.len());
            }
            let t = m.rounds(3, fs.len(), &mut [
                Box::new(|| timed(|| for r in &rs { ro_free(bb(ro_op(op as i32, r.0, r.1))) })),
                Box::new(|| timed(|| for i in &is { bb(icl_op(op as i32, i.0, i.1)); })),
            ]);
            for r in rs { ro_free(r.0); ro_free(r.1) }
            for i in is { icl_free(i.0); icl_free(i.1) }
            vec![("CRoaring", t[0]), ("Boost.ICL", t[1])]
        }
    }
}
