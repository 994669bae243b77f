//! lists ROOT: the stored lists of the programs crates/replay_..: `stdin` and `stdout` of each, made again byte for byte. What is expected
//! comes from the original; from the model where the original has no such answer (LONG and RANGE apart, FULL, MALFORMED, SIGN, the listed
//! differences); never from our library, which isn't called here. The cases of oracle/lists come first: their answers were written by hand,
//! and the original and the model must say the same. Each program's main.rt says its line format.
use oracle::case::{Op::*, *};
use oracle::rng::Rng;
use oracle::{gen, model, original};
use std::fmt::Write as _;

/// What is right: the original's word wherever it has one. It and the model must agree.
fn right(c: &Case) -> Answer {
    let m = model::answer(c);
    match original::answer(c) {
        Some(o) => { assert!(same(&o, &m), "{}", c.line()); if o.no == LONG_OR_RANGE { m } else { o } }
        None => m,
    }
}

#[derive(Default)]
struct List { stdin: String, stdout: String, cases: usize }
impl List {
    /// The cases of oracle/lists open a list. A line `CASE = ANSWER` is answered so by the original; `CASE : ANSWER` stands outside the
    /// comparison, and the rules alone answer it; `LINE ! ANSWER` is no call, and the answer is the program's own. `#` starts a comment.
    fn by_hand(root: &str, name: &str, case: fn(&str) -> Case, said: fn(&Case) -> Option<(String, String)>) -> List {
        let mut l = List::default();
        for text in std::fs::read_to_string(format!("{root}/oracle/lists/{name}.txt")).unwrap().lines().filter(|t| !t.is_empty() && !t.starts_with('#')) {
            let (i, sign) = text.match_indices([':', '=', '!']).next().unwrap();
            let (line, mut answer) = (text[..i].trim_end(), expanded(text[i + 1..].trim()));
            if sign != "!" {
                let c = case(line);
                assert_eq!(original::answer(&c).is_some(), sign == "=", "is it in the comparison? {text}");
                let right = if line.starts_with("length") { right(&c).next.to_string() } else { said(&c).unwrap().1 };
                assert!(answer == right.trim_end(), "{text}\n  is answered {right}");
                answer = right; // with the space before no byte
            }
            l.add_in_block(line.into(), answer);
        }
        l
    }
    fn see(&mut self, (line, answer): (String, String)) { self.add_in_block(line, answer) }
    fn add(&mut self, line: String, answer: String) { self.stdin += &line; self.stdin.push('\n'); self.stdout += &answer; self.stdout.push('\n'); self.cases += 1 }
    /// No line goes over the end of a block: spaces fill what is left of it.
    fn add_in_block(&mut self, line: String, answer: String) {
        let left = 65536 - self.stdin.len() % 65536;
        if line.len() + 1 > left { for _ in 0..left { self.stdin.push(' ') } }
        self.add(line, answer)
    }
    fn write(&self, root: &str, name: &str) {
        std::fs::write(format!("{root}/crates/{name}/stdin"), &self.stdin).unwrap();
        std::fs::write(format!("{root}/crates/{name}/stdout"), &self.stdout).unwrap();
        println!("{name}: {} cases, {} and {} bytes", self.cases, self.stdin.len(), self.stdout.len());
    }
}
/// The numbers that a word stands for: FROM+STEP*N is N numbers, FROM and then each STEP above the one before it.
fn spread(word: &str) -> Option<Vec<u64>> {
    let Some((from, rest)) = word.split_once('+') else { return Some(vec![word.parse().ok()?]) };
    let (step, n) = rest.split_once('*')?;
    let (from, step, n): (u64, u64, u64) = (from.parse().ok()?, step.parse().ok()?, n.parse().ok()?);
    Some((0..n).map(|i| from.wrapping_add(step.wrapping_mul(i))).collect())
}
fn expanded(answer: &str) -> String { answer.split(' ').map(|w| spread(w).map_or(w.into(), |v| words(&v).trim_start().to_string())).collect::<Vec<_>>().join(" ") }
/// The same numbers, eight or more that rise by one step as FROM+STEP*N.
fn short<T: Copy + Into<u64>>(v: &[T]) -> String {
    let v: Vec<u64> = v.iter().map(|&x| x.into()).collect();
    let (mut s, mut i) = (String::new(), 0);
    while i < v.len() {
        let step = v.get(i + 1).and_then(|y| y.checked_sub(v[i]));
        let n = step.map_or(1, |d| 1 + v[i..].windows(2).take_while(|w| w[1].checked_sub(w[0]) == Some(d)).count());
        let n = if n < 8 { 1 } else { n };
        if n == 1 { write!(s, " {}", v[i]).unwrap() } else { write!(s, " {}+{}*{n}", v[i], step.unwrap()).unwrap() }
        i += n;
    }
    s
}
/// A line's letter and its numbers, taken one after another; a missing one is 0.
struct Line { letter: char, numbers: std::vec::IntoIter<u64> }
impl Line {
    fn of(line: &str) -> Line { Line { letter: line.chars().next().unwrap(), numbers: line[1..].split_whitespace().flat_map(|w| spread(w).unwrap()).collect::<Vec<_>>().into_iter() } }
    fn next(&mut self) -> u64 { self.numbers.next().unwrap_or(0) }
    fn longs(&mut self, n: usize) -> Vec<u64> { (0..n).map(|_| self.next()).collect() }
    fn ints(&mut self, n: usize) -> Vec<u32> { (0..n).map(|_| self.next() as u32).collect() }
    fn table(&mut self, kind: Kind) -> Table {
        let mut t = Table { n: self.next() as usize, ..Table::default() };
        let x = if kind == Kind::Range { 0 } else { self.next() as usize };
        let y = self.next() as usize;
        let z = if kind == Kind::Id { self.next() as usize } else { 0 };
        (t.longs, t.ints, t.more) = (self.longs(x), self.ints(y), self.ints(z));
        t
    }
    /// An output of these lengths.
    fn out(&mut self, kind: Kind) -> Table {
        let x = if kind == Kind::Range { 0 } else { self.next() as usize };
        let y = self.next() as usize;
        let z = if kind == Kind::Id { self.next() as usize } else { 0 };
        Table { n: 0, longs: vec![9; x], ints: vec![9; y], more: vec![9; z] }
    }
}
fn hex(b: &[u8]) -> String { b.iter().map(|x| format!("{x:02x}")).collect() }

// ---- numbers

fn kind(i: Int, signed: bool) -> String { if signed { format!("s{}", i.name().trim_start_matches('i')) } else { i.name().to_string() } }
fn number_case(line: &str) -> Case {
    let w: Vec<&str> = line.split(' ').collect();
    let op = ops().into_iter().find(|o| match o { Read(i) => w[0] == "read" && kind(*i, false) == w[1], ReadSigned(i) => w[0] == "read" && kind(*i, true) == w[1], Write(i) => w[0] != "read" && kind(*i, false) == w[1], WriteSigned(i) => w[0] != "read" && kind(*i, true) == w[1], _ => false }).unwrap();
    let mut c = Case::of(op);
    if w[0] == "length" { c.int = w[2].parse().unwrap(); c.bytes = vec![0xee; 24]; return c }
    c.at = w[2].parse().unwrap();
    if w[0] == "read" { let h = w.get(3).unwrap_or(&""); c.bytes = (0..h.len() / 2).map(|i| u8::from_str_radix(&h[2 * i..2 * i + 2], 16).unwrap()).collect(); return c }
    c.bytes = vec![0xee; w[3].parse().unwrap()];
    c.int = w[4].parse().unwrap();
    c.flag = w.get(5) == Some(&"1");
    c
}
fn number(l: &mut List, c: &Case) { let (line, answer) = number_said(c); l.add(line, answer) }
fn number_said(c: &Case) -> (String, String) {
    let mut c = c.clone();
    match c.op {
        Read(i) => {
            let a = right(&c);
            let value = if i.least() < 0 { (a.value as i64).to_string() } else { a.value.to_string() };
            (format!("read {} {} {}", kind(i, false), c.at, hex(&c.bytes)).trim_end().into(), format!("{} {} {}", a.no, value, a.next))
        }
        ReadSigned(i) => {
            let a = right(&c);
            (format!("read {} {} {}", kind(i, true), c.at, hex(&c.bytes)).trim_end().into(), format!("{} {} {} {}", a.no, a.value as i64, a.some as u8, a.next))
        }
        Write(i) | WriteSigned(i) => {
            c.bytes = vec![0xee; c.bytes.len()];
            let a = right(&c);
            let signed = matches!(c.op, WriteSigned(_));
            let mut line = format!("write {} {} {} {}", kind(i, signed), c.at, c.bytes.len(), c.int);
            if signed { write!(line, " {}", c.flag as u8).unwrap() }
            (line, format!("{} {} {}", a.no, a.next, hex(&a.bytes)))
        }
        _ => unreachable!(),
    }
}
fn numbers(mut l: List) -> List {
    let readers: Vec<Op> = ops().into_iter().filter(|o| o.reads()).collect();
    let writers: Vec<Op> = ops().into_iter().filter(|o| matches!(o, Write(_) | WriteSigned(_))).collect();
    // the bytes to try of docs/RULES.md
    for (i, v) in [(Int::U64, 128), (Int::U64, 300), (Int::U64, u64::MAX as i128), (Int::I64, 63), (Int::I64, 64), (Int::I64, -1), (Int::I64, -64), (Int::I64, i64::MIN as i128)] {
        let mut c = Case::of(Write(i));
        c.int = v;
        c.bytes = vec![0xee; 12];
        number(&mut l, &c);
    }
    for (op, bytes) in [(Read(Int::U8), vec![0x80, 0x02]), (Read(Int::U32), vec![0x80, 0x80, 0x80, 0x80, 0x80, 0x01]), (Read(Int::U64), vec![0x80, 0x80, 0x80, 0x80, 0x80, 0x01]), (Read(Int::I64), vec![0x40]), (ReadSigned(Int::I64), vec![0x40])] {
        let mut c = Case::of(op);
        c.bytes = bytes;
        number(&mut l, &c);
    }
    // runs of continued bytes of every length, and every end that tells
    for fill in [0x80u8, 0xff] { for len in 0..=12usize { for end in [None, Some(0x00u8), Some(0x01), Some(0x02), Some(0x40), Some(0x7f)] { for &op in &readers {
        if fill == 0xff && len % 3 != 0 && len < 10 { continue }
        let mut c = Case::of(op);
        c.bytes = vec![fill; len];
        c.bytes.extend(end);
        number(&mut l, &c);
    } } } }
    // values about each power of two, into rooms one short, exact and one over
    for &op in &writers {
        let (Write(i) | WriteSigned(i)) = op else { unreachable!() };
        let mut turn = 0;
        for k in [0u32, 5, 6, 7, 8, 12, 13, 14, 15, 16, 20, 21, 27, 28, 31, 32, 34, 35, 41, 42, 48, 49, 55, 56, 62, 63, 64] { for d in [-1i128, 0] { for sign in [1i128, -1] {
            let v = sign * ((1i128 << k) + d);
            if v < i.least() || v > i.most() { continue }
            let mut c = Case::of(op);
            c.int = v;
            turn += 1;
            c.flag = matches!(op, WriteSigned(_)) && (v < 0) != (turn % 16 == 0);
            c.at = turn % 3;
            c.bytes = vec![0xee; 24];
            let need = right(&c).next;
            c.bytes.truncate((need + turn / 3 % 3).saturating_sub(1));
            number(&mut l, &c);
        } } }
    }
    // how many bytes the original writes
    for i in [Int::U64, Int::U32, Int::I64] { for k in 0..=64u32 { for d in [-1i128, 0] { for sign in [1i128, -1] {
        let v = sign * ((1i128 << k) + d);
        if v < i.least() || v > i.most() || v == 0 && sign < 0 { continue }
        let mut c = Case::of(Write(i));
        c.int = v;
        c.bytes = vec![0xee; 24];
        l.add(format!("length {} {v}", i.name()), right(&c).next.to_string());
    } } } }
    let mut r = Rng(1);
    for _ in 0..80 { gen::random_read(&mut r, &readers, &mut |c| number(&mut l, c)); gen::random_write(&mut r, &writers, &mut |c| number(&mut l, c)) }
    l
}

// ---- tables

fn words<T: ToString>(v: &[T]) -> String { v.iter().map(|x| format!(" {}", x.to_string())).collect() }
fn yes(a: &Answer) -> String { format!("{} {}", a.no, a.some as u8) }
fn count(a: &Answer) -> String { format!("{} {}", a.no, a.value) }
fn maybe(a: &Answer) -> String { if a.some { count(a) } else { a.no.to_string() } }

fn range_case(line: &str) -> Case {
    let mut l = Line::of(line);
    let mut c = Case::of(match l.letter { 'm' => Merge, 'x' => Exclude, 'i' => Intersect, 'n' => Insert, 'r' => Remove, 'f' => FromRanges, 'c' => Contains, 's' => FindStart, 'b' => ClockStart, 'e' => ClockEnd, 'l' => Len, 'z' => IsEmpty, 'g' => Get, _ => panic!("{line}") });
    if c.op.gives_table() { c.out = l.out(Kind::Range) }
    if matches!(c.op, Insert | Remove | Contains | FindStart | Get) { c.start = l.next() }
    if matches!(c.op, Insert | Remove) { c.end = l.next() as u32 }
    c.a = l.table(Kind::Range);
    if c.op.two_tables() { c.b = l.table(Kind::Range) }
    c
}
fn range_said(c: &Case) -> Option<(String, String)> {
    let t = |t: &Table| format!("{} {}{}", t.n, t.ints.len(), short(&t.ints));
    let a = right(c);
    let made = || { let rows = 2 * a.out.n; format!("{} {} {}{}", a.no, a.out.n, a.out.ints[rows..].iter().filter(|x| **x != 0).count(), words(&a.out.ints[..rows])) };
    let (x, y, out) = (t(&c.a), t(&c.b), c.out.ints.len());
    let (line, answer) = match c.op {
        Merge => (format!("m {out} {x} {y}"), made()),
        Exclude => (format!("x {out} {x} {y}"), made()),
        Intersect => (format!("i {out} {x} {y}"), made()),
        Insert => (format!("n {out} {} {} {x}", c.start, c.end), made()),
        Remove => (format!("r {out} {} {} {x}", c.start, c.end), made()),
        FromRanges => (format!("f {out} {x}"), made()),
        Contains => (format!("c {} {x}", c.start), yes(&a)),
        FindStart => (format!("s {} {x}", c.start), maybe(&a)),
        ClockStart => (format!("b {x}"), maybe(&a)),
        ClockEnd => (format!("e {x}"), maybe(&a)),
        Len => (format!("l {x}"), count(&a)),
        IsEmpty => (format!("z {x}"), yes(&a)),
        Get => (format!("g {} {x}", c.start), if a.some { format!("{} {} {}", a.no, a.value, a.second) } else { a.no.to_string() }),
        _ => unreachable!(),
    };
    Some((line, answer))
}
fn id_case(line: &str) -> Case {
    let mut l = Line::of(line);
    let mut c = Case::of(match l.letter { 'm' => IdMerge, 'x' => IdDiff, 'i' => IdIntersect, 'n' => IdInsert, 'k' => IdCapture, 'c' => IdContains, 'z' => IdIsEmpty, 'l' => IdLen, _ => panic!("{line}") });
    if c.op.gives_table() { c.out = l.out(Kind::Id) }
    if matches!(c.op, IdInsert | IdContains) { c.client = l.next(); c.start = l.next() }
    if c.op == IdInsert { c.end = l.next() as u32 }
    c.a = l.table(Kind::Id);
    if c.op.two_tables() { c.b = l.table(Kind::Id) }
    c
}
/// None where a slice is longer than the program's.
fn id_said(c: &Case) -> Option<(String, String)> {
    if [&c.a, &c.b, &c.out].iter().any(|t| t.longs.len().max(t.ints.len()).max(t.more.len()) > 1100) { return None }
    let t = |t: &Table| format!("{} {} {} {}{}{}{}", t.n, t.longs.len(), t.ints.len(), t.more.len(), short(&t.longs), short(&t.ints), short(&t.more));
    let a = right(c);
    let made = || {
        let (o, n) = (&a.out, a.out.n);
        let left = o.longs[n..].iter().filter(|x| **x != 0).count() + o.ints[n..].iter().chain(&o.more[n..]).filter(|x| **x != 0).count();
        let rows: String = (0..n).map(|i| format!(" {} {} {}", o.longs[i], o.ints[i], o.more[i])).collect();
        format!("{} {n} {left}{rows}", a.no)
    };
    let (x, y) = (t(&c.a), t(&c.b));
    let out = format!("{} {} {}", c.out.longs.len(), c.out.ints.len(), c.out.more.len());
    let (line, answer) = match c.op {
        IdMerge => (format!("m {out} {x} {y}"), made()),
        IdDiff => (format!("x {out} {x} {y}"), made()),
        IdIntersect => (format!("i {out} {x} {y}"), made()),
        IdInsert => (format!("n {out} {} {} {} {x}", c.client, c.start, c.end), made()),
        IdCapture => (format!("k {out} {x}"), made()),
        IdContains => (format!("c {} {} {x}", c.client, c.start), yes(&a)),
        IdIsEmpty => (format!("z {x}"), yes(&a)),
        IdLen => (format!("l {x}"), count(&a)),
        _ => unreachable!(),
    };
    Some((line, answer))
}
fn vector_case(line: &str) -> Case {
    let mut l = Line::of(line);
    let mut c = Case::of(match l.letter { 'm' => VecMerge, 'i' => VecSetMin, 'a' => VecSetMax, 'd' => VecDecode, 'e' => VecEncode, 'g' => VecGet, 'c' => VecCompare, _ => panic!("{line}") });
    if c.op.gives_table() { c.out = l.out(Kind::Vector) }
    match c.op {
        VecSetMin | VecSetMax => { c.client = l.next(); c.start = l.next() }
        VecGet => c.client = l.next(),
        VecEncode => { c.bytes = vec![238; l.next() as usize]; c.at = l.next() as usize }
        VecDecode => { c.at = l.next() as usize; c.bytes = l.numbers.map(|x| x as u8).collect(); return c }
        _ => {}
    }
    c.a = l.table(Kind::Vector);
    if c.op.two_tables() { c.b = l.table(Kind::Vector) }
    c
}
/// None where a slice is longer than the program's.
fn vector_said(c: &Case) -> Option<(String, String)> {
    let mut c = c.clone();
    if c.op == VecEncode { c.bytes = vec![238; c.bytes.len()] }
    c.out.longs.truncate(300);
    c.out.ints.truncate(300);
    if [&c.a, &c.b].iter().any(|t| t.longs.len().max(t.ints.len()) > 300) || c.bytes.len() > 4096 { return None }
    let t = |t: &Table| format!("{} {} {}{}{}", t.n, t.longs.len(), t.ints.len(), short(&t.longs), short(&t.ints));
    let a = right(&c);
    let rows = || {
        let (o, n) = (&a.out, a.out.n);
        let left = o.longs[n..].iter().filter(|x| **x != 0).count() + o.ints[n..].iter().filter(|x| **x != 0).count();
        format!("{left}{}", (0..n).map(|i| format!(" {} {}", o.longs[i], o.ints[i])).collect::<String>())
    };
    let made = || format!("{} {} {}", a.no, a.out.n, rows());
    let (x, y) = (t(&c.a), t(&c.b));
    let out = format!("{} {}", c.out.longs.len(), c.out.ints.len());
    let (line, answer) = match c.op {
        VecGet => (format!("g {} {x}", c.client), count(&a)),
        VecSetMin => (format!("i {out} {} {} {x}", c.client, c.start), made()),
        VecSetMax => (format!("a {out} {} {} {x}", c.client, c.start), made()),
        VecMerge => (format!("m {out} {x} {y}"), made()),
        VecDecode => (format!("d {out} {}{}", c.at, words(&c.bytes)), format!("{} {} {} {}", a.no, a.out.n, a.next, rows())),
        VecEncode => (format!("e {} {} {x}", c.bytes.len(), c.at), format!("{} {}{}", a.no, a.next, words(&a.bytes))),
        VecCompare => (format!("c {x} {y}"), count(&a)),
        _ => unreachable!(),
    };
    Some((line, answer))
}
fn vectors(mut l: List) -> List {
    // the bytes and rows to try of docs/RULES.md
    let v = |rows: &[(u64, u32)]| gen::vec_table(rows);
    let with = |op: Op, f: &dyn Fn(&mut Case)| { let mut c = Case::of(op); c.out = gen::room(Kind::Vector, 3, 0); f(&mut c); c };
    let cases = [
        with(VecEncode, &|c| { c.a = v(&[(1, 4), (300, 0)]); c.bytes = vec![0; 8] }),
        with(VecDecode, &|c| c.bytes = vec![2, 7, 1, 7, 5]),
        with(VecDecode, &|c| c.bytes = vec![2, 1, 4, 0xac, 2, 0]),
        with(VecCompare, &|c| c.a = v(&[(9, 0)])),
        with(VecCompare, &|c| { c.a = v(&[(1, 2), (2, 1)]); c.b = v(&[(1, 1), (2, 2)]) }),
        with(VecSetMin, &|c| { c.client = 3; c.start = 9 }),
    ];
    let mut see = |c: &Case| if let Some(said) = vector_said(c) { l.see(said) };
    for c in &cases { see(c) }
    // the longest vector, 3,842 bytes, into one byte less and into just enough, and back
    let mut c = with(VecEncode, &|c| { c.a = v(&(0..256).map(|i| (u64::MAX - 255 + i, u32::MAX)).collect::<Vec<_>>()); c.bytes = vec![0; 3841] });
    see(&c);
    c.bytes.push(0);
    see(&c);
    let bytes = right(&c).bytes;
    see(&with(VecDecode, &|c| { c.bytes = bytes.clone(); c.out = gen::room(Kind::Vector, 256, 1) }));
    let mut r = Rng(4);
    for i in 0..110 { gen::random_vector(&mut r, 1 + i % 4, &mut see) }
    for rows in [12, 40, 250] { gen::random_vector(&mut r, rows, &mut see) }
    l
}
/// The rows to try of docs/RULES.md, as ranges and as ids of client 1.
fn examples(see: &mut dyn FnMut(&Case), kind: Kind) {
    let t = |rows: &[(u32, u32)]| {
        let rows: Vec<_> = rows.iter().map(|r| (1, r.0, r.1)).collect();
        if kind == Kind::Range { gen::range_table(&rows) } else { gen::id_table(&rows) }
    };
    let mut try_it = |op: Op, a: &[(u32, u32)], b: &[(u32, u32)], start: u32, end: u32| {
        if op.kind() != kind { return }
        let mut c = Case::of(op);
        c.a = t(a);
        if op.two_tables() { c.b = t(b) }
        if kind == Kind::Id { c.client = 1 }
        c.start = start as u64;
        c.end = end;
        c.out = gen::room(kind, 4, 1);
        see(&c)
    };
    for op in [Insert, IdInsert] { try_it(op, &[(2, 5), (9, 10)], &[], 5, 7); try_it(op, &[(2, 5), (9, 10)], &[], 4, 9); try_it(op, &[], &[], 5, 5) }
    try_it(Remove, &[(2, 5)], &[], 3, 4);
    for op in [Merge, IdMerge] { try_it(op, &[(0, 3), (8, 9)], &[(3, 8)], 0, 0); try_it(op, &[(2, 5), (5, 7)], &[], 0, 0) }
    for op in [Exclude, IdDiff] { try_it(op, &[(0, 10)], &[(2, 4), (6, 12)], 0, 0) }
    for op in [Intersect, IdIntersect] { try_it(op, &[(0, 5), (7, 12)], &[(3, 8)], 0, 0) }
}
fn tables(mut l: List, seed: u64, kind: Kind, random: fn(&mut Rng, usize, &mut dyn FnMut(&Case)), said: fn(&Case) -> Option<(String, String)>, small: usize) -> List {
    let mut r = Rng(seed);
    let mut see = |c: &Case| if let Some(said) = said(c) { l.see(said) };
    examples(&mut see, kind);
    for i in 0..small { random(&mut r, 1 + i % 6, &mut see) }
    for rows in [12, 25, 40, 64] { random(&mut r, rows, &mut see) }
    l
}

fn main() {
    let root = std::env::args().nth(1).expect("ROOT");
    numbers(List::by_hand(&root, "numbers", number_case, |c| Some(number_said(c)))).write(&root, "replay_numbers");
    tables(List::by_hand(&root, "ranges", range_case, range_said), 2, Kind::Range, gen::random_range, range_said, 150).write(&root, "replay_ranges");
    tables(List::by_hand(&root, "ids", id_case, id_said), 3, Kind::Id, gen::random_id, id_said, 220).write(&root, "replay_ids");
    vectors(List::by_hand(&root, "vectors", vector_case, vector_said)).write(&root, "replay_vectors");
}
