//! compare [SECONDS [SEED]]: every small case, then random ones until the time is up. Each case goes to
//! the model, to the original where the comparison covers it, and to the proved library where it is
//! linked; the three must say the same, down to each element left in lent memory.
use oracle::case::*;
use oracle::rng::Rng;
use oracle::{gen, model, original, ours};
use std::collections::BTreeMap;
use std::sync::atomic::{AtomicBool, Ordering::Relaxed};
use std::time::{Duration, Instant};

#[derive(Clone, Copy, Default)]
struct Count { original: u64, full: u64, model: u64, ours: u64 }
#[derive(Default)]
struct Tally { counts: Vec<Count>, bad: BTreeMap<Op, Case>, failed: u64 }

fn index(op: Op) -> usize {
    use Op::*;
    match op {
        Read(i) => i as usize, ReadSigned(i) => 9 + i as usize - 4, Write(i) => 14 + i as usize, WriteSigned(i) => 23 + i as usize - 4,
        o => 28 + RANGE_OPS.iter().chain(&ID_OPS).chain(&VEC_OPS).position(|x| *x == o).unwrap(),
    }
}
/// None where all agree.
fn fault(c: &Case) -> Option<(Option<Answer>, Answer, Option<Answer>)> {
    let m = model::answer(c);
    let o = original::answer(c);
    let u = ours::answer(c);
    let ok = o.as_ref().map_or(true, |o| same(o, &m)) && u.as_ref().map_or(true, |u| *u == m);
    if ok { None } else { Some((o, m, u)) }
}
impl Tally {
    fn see(&mut self, c: &Case) {
        if c.op.reads() {
            let m = model::number(c);
            let n = &mut self.counts[index(c.op)];
            let mut ok = true;
            match original::number(c) { Some(o) => { ok = o.same(m); n.original += 1 } None => n.model += 1 }
            if let Some(u) = ours::number(c) { n.ours += 1; ok &= u == m }
            return self.judge(c, ok);
        }
        let m = model::answer(c);
        let o = original::answer(c);
        let n = &mut self.counts[index(c.op)];
        let mut ok = true;
        match &o {
            Some(o) => { ok = same(o, &m); if m.no == FULL { n.full += 1 } else { n.original += 1 } }
            None => n.model += 1,
        }
        if let Some(u) = ours::answer(c) { n.ours += 1; ok &= u == m; }
        self.judge(c, ok);
    }
    fn judge(&mut self, c: &Case, ok: bool) {
        if !ok {
            self.failed += 1;
            if !self.bad.contains_key(&c.op) { let small = smallest(c); self.bad.insert(c.op, small); }
        }
    }
}

fn size(c: &Case) -> (usize, u128) {
    let t = |t: &Table| t.longs.len() + t.ints.len() + t.more.len();
    let v = |t: &Table| t.longs.iter().map(|x| *x as u128).sum::<u128>() + t.ints.iter().chain(&t.more).map(|x| *x as u128).sum::<u128>() + t.n as u128;
    (c.bytes.len() + t(&c.a) + t(&c.b) + t(&c.out), c.bytes.iter().map(|x| *x as u128).sum::<u128>() + v(&c.a) + v(&c.b) + c.int.unsigned_abs() + c.at as u128 + c.client as u128 + c.start as u128 + c.end as u128)
}
/// Smaller cases like this one.
fn smaller(c: &Case) -> Vec<Case> {
    let mut all = vec![];
    let mut with = |f: &dyn Fn(&mut Case)| { let mut d = c.clone(); f(&mut d); if size(&d) < size(c) { all.push(d) } };
    for i in 0..c.bytes.len() { with(&|d| { d.bytes.remove(i); }); with(&|d| d.bytes[i] &= 0x80); with(&|d| d.bytes[i] = 1); with(&|d| d.bytes[i] -= (d.bytes[i] & 127 > 0) as u8) }
    for k in [0, 1] {
        fn pick(d: &mut Case, k: i32) -> &mut Table { if k == 0 { &mut d.a } else { &mut d.b } }
        let t = if k == 0 { &c.a } else { &c.b };
        let per = if c.op.kind() == Kind::Range { 2 } else { 1 };
        let drop = |t: &mut Table, i: usize, m: usize| {
            for _ in 0..m * per { if i * per < t.ints.len() { t.ints.remove(i * per); } }
            for _ in 0..m { if i < t.longs.len() { t.longs.remove(i); } if i < t.more.len() { t.more.remove(i); } }
            if i < t.n { t.n -= m.min(t.n - i) }
        };
        let rows = t.ints.len() / per;
        for m in [rows / 2, rows / 4, 8, 1] { if m > 0 { for i in (0..rows).step_by(m) { with(&|d| drop(pick(d, k), i, m)) } } }
        if t.ints.len() < 64 {
            for i in 0..t.ints.len() { for f in [|x: u32| x / 2, |x: u32| x.saturating_sub(1)] { with(&|d| { let t = pick(d, k); t.ints[i] = f(t.ints[i]) }); with(&|d| { let t = pick(d, k); for x in t.ints[i..].iter_mut().chain(t.more.iter_mut()) { *x = f(*x) } }) } }
            for i in 0..t.more.len() { for f in [|x: u32| x / 2, |x: u32| x.saturating_sub(1)] { with(&|d| { let t = pick(d, k); t.more[i] = f(t.more[i]) }) } }
            for i in 0..t.longs.len() { for f in [|x: u64| x / 2, |x: u64| x.saturating_sub(1)] { with(&|d| { let t = pick(d, k); t.longs[i] = f(t.longs[i]) }) } }
        }
        with(&|d| { let t = pick(d, k); t.n = t.n.saturating_sub(1) });
    }
    for m in [c.out.ints.len() / 2, 2, 1] { if m > 0 { with(&|d| { for _ in 0..m { d.out.ints.pop(); } }); with(&|d| for _ in 0..m { d.out.ints.pop(); d.out.longs.pop(); d.out.more.pop(); }) } }
    for m in [1, 2] { with(&|d| for _ in 0..m { d.out.longs.pop(); }); with(&|d| for _ in 0..m { d.out.more.pop(); }) }
    for f in [|x: i128| x / 2, |x: i128| x - x.signum()] { with(&|d| d.int = f(d.int)) }
    for f in [|x: u64| x / 2, |x: u64| x.saturating_sub(1)] {
        with(&|d| d.client = f(d.client)); with(&|d| d.start = f(d.start)); with(&|d| d.end = f(d.end as u64) as u32); with(&|d| d.at = f(d.at as u64) as usize);
        with(&|d| { d.start = f(d.start); d.end = f(d.end as u64) as u32; for x in d.a.ints.iter_mut().chain(d.b.ints.iter_mut()) { *x = f(*x as u64) as u32 } });
    }
    all.sort_by_key(size);
    all
}
fn smallest(c: &Case) -> Case {
    let mut best = c.clone();
    let t = Instant::now();
    while t.elapsed() < Duration::from_secs(5) {
        match smaller(&best).into_iter().find(|d| fault(d).is_some()) { Some(d) => best = d, None => break }
    }
    best
}

fn main() {
    let a: Vec<String> = std::env::args().collect();
    let secs: u64 = a.get(1).map_or(60, |s| s.parse().expect("SECONDS"));
    let seed: u64 = a.get(2).map_or_else(|| std::time::SystemTime::now().duration_since(std::time::UNIX_EPOCH).unwrap().as_nanos() as u64, |s| s.parse().expect("SEED"));
    let parts = std::thread::available_parallelism().map_or(2, |n| n.get()) as u64;
    println!("{secs} s, seed {seed}, {parts} threads; proved library {}", if ours::LINKED { "linked" } else { "not linked" });
    let start = Instant::now();
    let stop = AtomicBool::new(false);
    let long = secs >= 300;
    let tallies: Vec<Tally> = std::thread::scope(|s| {
        let stop = &stop;
        let threads: Vec<_> = (0..parts).map(|p| s.spawn(move || {
            let mut t = Tally { counts: vec![Count::default(); ops().len()], ..Tally::default() };
            let share = gen::Share { p, parts, long };
            let mut part = |name: &str, f: &dyn Fn(&gen::Share, &mut dyn FnMut(&Case))| {
                if stop.load(Relaxed) { return }
                let (mut n, from) = (0u64, Instant::now());
                f(&share, &mut |c| { n += 1; t.see(c) });
                if t.failed > 0 { stop.store(true, Relaxed) }
                if p == 0 { println!("{:>7.1} s  {name}: {} cases in {:.1} s on each of {parts} threads", start.elapsed().as_secs_f64(), n, from.elapsed().as_secs_f64()) }
            };
            part("writers, all of 16 bits and about each power", &gen::all_writes);
            part("readers, strings over 01 80 FF, all to 12", &|s, see| gen::strings_over(&[0x01, 0x80, 0xff], 12, s, see));
            part("readers, strings over 00 40 7F 80 C0 FF, all to 7", &|s, see| gen::strings_over(&[0x00, 0x40, 0x7f, 0x80, 0xc0, 0xff], 7, s, see));
            part("readers, runs over 80 C0 and 6 ends, all to 12", &|s, see| gen::runs_over(&[0x80, 0xc0], s, see));
            part("range tables over 8 clocks, all", &gen::all_ranges);
            part("id tables over 3 clients of 3 clocks, all", &gen::all_ids);
            part("vectors over 3 clients, all", &gen::all_vectors);
            part("tables that break the rules", &gen::all_malformed);
            part("vector bytes over 7 values, all to 7", &gen::all_decodes);
            part("vectors that declare up to 2^32-1 pairs", &gen::huge_counts);
            if long { part("readers, runs over 80 81 C0 FF and 6 ends, all to 12", &|s, see| gen::runs_over(&[0x80, 0x81, 0xc0, 0xff], s, see)) }
            part("readers, strings of any bytes, all to 3", &gen::short_strings);
            let mut r = Rng(seed ^ (p << 56));
            let mut rounds = 0u64;
            // however long the small cases took, random ones get a third of the time
            let end = Duration::from_secs(secs).max(start.elapsed() + Duration::from_secs(secs) / 3);
            while start.elapsed() < end && !stop.load(Relaxed) {
                gen::round(&mut r, &mut |c| t.see(c));
                rounds += 1;
                if t.failed > 0 { stop.store(true, Relaxed) }
            }
            if p == 0 { println!("{:>7.1} s  random: {rounds} rounds on thread 0", start.elapsed().as_secs_f64()) }
            t
        })).collect();
        threads.into_iter().map(|t| t.join().unwrap()).collect()
    });
    println!("\n{:<22} {:>13} {:>13} {:>13} {:>13}", "operation", "= original", "FULL by count", "model alone", "ours");
    let mut sum = Count::default();
    let add = |s: &mut Count, c: &Count| { s.original += c.original; s.full += c.full; s.model += c.model; s.ours += c.ours };
    for (i, op) in ops().into_iter().enumerate() {
        let mut n = Count::default();
        for t in &tallies { add(&mut n, &t.counts[i]) }
        println!("{:<22} {:>13} {:>13} {:>13} {:>13}", op.name(), n.original, n.full, n.model, n.ours);
        add(&mut sum, &n);
    }
    println!("{:<22} {:>13} {:>13} {:>13} {:>13}", "all", sum.original, sum.full, sum.model, sum.ours);
    println!("{} cases in {:.1} s, seed {seed}", sum.original + sum.full + sum.model, start.elapsed().as_secs_f64());
    let mut bad: BTreeMap<Op, Case> = BTreeMap::new();
    for t in &tallies { for (op, c) in &t.bad { if bad.get(op).map_or(true, |o| size(c) < size(o)) { bad.insert(*op, c.clone()); } } }
    for (op, c) in &bad {
        let (o, m, u) = fault(c).unwrap();
        println!("\nDIFFER, smallest: {}", c.line());
        println!("  original {}", o.map_or("-".into(), |o| o.line(*op)));
        println!("  model    {}", m.line(*op));
        println!("  ours     {}", u.map_or("-".into(), |u| u.line(*op)));
    }
    println!("{} differ", tallies.iter().map(|t| t.failed).sum::<u64>());
    if !bad.is_empty() { std::process::exit(1) }
}
