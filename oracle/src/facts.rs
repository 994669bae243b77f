//! Where the rules and the original part ways, each on its smallest input: what the original does in
//! this build, and what the model says. `docs/DIFFERENCES.md` is written from it.
use crate::block::ClientID;
use crate::case::*;
use crate::encoding::read::{Cursor, Read as _};
use crate::ids::IdMapInner;
use crate::original::{decoded, ids, sorted, table, vector, vector_rows, written, written_signed};
use crate::updates::encoder::Encode;
use crate::{gen, model, ours};
use std::fmt::Debug;
use std::panic::{catch_unwind, AssertUnwindSafe};
use std::sync::atomic::{AtomicUsize, Ordering::Relaxed};

pub struct Fact { pub what: String, pub document: String, pub rust: String }

fn tried<T: Debug>(f: impl FnOnce() -> T) -> String {
    match catch_unwind(AssertUnwindSafe(f)) {
        Ok(v) => format!("{v:?}"),
        Err(e) => format!("panics: {}", e.downcast_ref::<String>().cloned().or(e.downcast_ref::<&str>().map(|s| s.to_string())).unwrap_or_default()),
    }
}
fn hex(b: &[u8]) -> String { b.iter().map(|x| format!("{x:02X}")).collect::<Vec<_>>().join(" ") }
struct Hex(Vec<u8>);
impl Debug for Hex { fn fmt(&self, f: &mut std::fmt::Formatter) -> std::fmt::Result { f.write_str(&hex(&self.0)) } }

fn read(b: &[u8], i: Int, signed: bool) -> String {
    fn go<T: crate::encoding::varint::VarInt + Debug>(b: &[u8]) -> String {
        let mut c = Cursor::new(b);
        let r = c.read_var::<T>();
        match r { Ok(v) => format!("{v:?}, place {}", c.next), Err(e) => format!("{e:?}, place {}", c.next) }
    }
    if signed {
        let mut c = Cursor::new(b);
        return match c.read_var_signed::<i64>() { Ok(v) => format!("{} {}, place {}", if v.is_negative() { "minus" } else { "plus" }, v.value(), c.next), Err(e) => format!("{e:?}, place {}", c.next) };
    }
    match i { Int::U8 => go::<u8>(b), Int::U32 => go::<u32>(b), Int::U64 => go::<u64>(b), Int::I8 => go::<i8>(b), Int::I32 => go::<i32>(b), _ => go::<i64>(b) }
}
static ASKED: AtomicUsize = AtomicUsize::new(0);
/// What the model says; where the proved library is linked it is asked too, and must say the same.
fn said(c: &Case) -> Answer {
    let m = model::answer(c);
    if let Some(u) = ours::answer(c) {
        assert!(u == m, "{}: ours {}, the rules {}", c.line(), u.line(c.op), m.line(c.op));
        ASKED.fetch_add(1, Relaxed);
    }
    m
}
/// A case whose answer by the rules is written out.
fn holds(case: &str, answer: &str) {
    let c = Case::parse(case).unwrap();
    assert_eq!(said(&c).line(c.op), answer, "{case}");
}
/// How many inputs the proved library was asked.
pub fn asked() -> String {
    if ours::LINKED { format!("the proved library was asked {} of these inputs, and says what the rules say", ASKED.load(Relaxed)) } else { "the proved library was not asked".into() }
}

fn name(no: u32) -> &'static str { ["done", "END", "LONG", "RANGE", "FULL", "MALFORMED", "SIGN"][no as usize] }

pub fn all() -> Vec<Fact> {
    std::panic::set_hook(Box::new(|_| ()));
    let mut v = vec![];
    let mut add = |what: String, document: String, rust: String| v.push(Fact { what, document, rust });
    // readers
    let eighty = |n: usize, last: &[u8]| { let mut b = vec![0x80u8; n]; b.extend_from_slice(last); b };
    let least = { let mut b = eighty(9, &[2]); b[0] = 0xc0; b };
    let beyond = { let mut b = eighty(10, &[0x7f]); b[0] = 0xc0; b };
    for (b, i, signed) in [
        (least.clone(), Int::I64, false), (least.clone(), Int::I64, true), (least.clone(), Int::I8, false), (eighty(9, &[2]), Int::I64, false),
        (eighty(10, &[]), Int::I64, false), (eighty(10, &[0]), Int::I64, false), (eighty(10, &[1]), Int::I64, false), (eighty(10, &[1]), Int::I64, true), (eighty(10, &[1]), Int::I8, false),
        (beyond, Int::I64, false), (eighty(11, &[]), Int::I64, false), (eighty(11, &[0]), Int::I64, false),
        (vec![0x80], Int::U64, false), (vec![], Int::U64, false), (eighty(11, &[]), Int::U64, false), (vec![0x80, 2], Int::U8, false), (eighty(11, &[]), Int::U8, false), (vec![0x80, 2], Int::I8, false),
        (eighty(5, &[1]), Int::U32, false), (eighty(5, &[1]), Int::U64, false), (eighty(10, &[1]), Int::U32, false), (eighty(10, &[1]), Int::U64, false), (eighty(10, &[]), Int::U64, false),
        (vec![0x40], Int::I64, false), (vec![0x40], Int::I64, true),
    ] {
        let mut c = Case::of(if signed { Op::ReadSigned(i) } else { Op::Read(i) });
        c.bytes = b.clone();
        let m = said(&c);
        let value = if i.least() < 0 { format!("{}", m.value as i64) } else { format!("{}", m.value) };
        let doc = if m.no > 0 { format!("{}, place {}", name(m.no), m.next) } else if signed { format!("{} {value}, place {}", if m.some { "minus" } else { "plus" }, m.next) } else { format!("{value}, place {}", m.next) };
        let rust = match catch_unwind(|| read(&b, i, signed)) { Ok(s) => s, Err(_) => tried(|| read(&b, i, signed)) };
        add(format!("read {}{} of {}", if signed { "Signed " } else { "" }, i.name(), if b.is_empty() { "no byte".into() } else { hex(&b) }), doc, rust);
    }
    add("read u16 of 80 80 04 (65,536)".into(), "left out".into(), tried(|| { let mut c = Cursor::new(&[0x80, 0x80, 4]); let r = c.read_var::<u16>(); format!("{r:?}, place {}", c.next) }));
    // writers
    let wrote = |op: Op, int: i128, flag: bool| { let mut c = Case::of(op); c.int = int; c.flag = flag; c.bytes = vec![0; 16]; let m = said(&c); if m.no > 0 { name(m.no).to_string() } else { hex(&m.bytes[..m.next]) } };
    add("write i64 -2^63".into(), wrote(Op::Write(Int::I64), i64::MIN as i128, true), tried(|| Hex(written(i64::MIN))));
    add("write i64 -2^63 + 1".into(), wrote(Op::Write(Int::I64), i64::MIN as i128 + 1, true), tried(|| Hex(written(i64::MIN + 1))));
    add("write i32 -2^31".into(), wrote(Op::Write(Int::I32), i32::MIN as i128, true), tried(|| Hex(written(i32::MIN))));
    for (x, m) in [(i64::MIN, true), (i64::MIN, false), (5, true), (1, true), (-1, false), (0, true), (64, true), (-64, false)] {
        add(format!("write Signed i64 ({x}, {})", if m { "minus" } else { "plus" }), wrote(Op::WriteSigned(Int::I64), x as i128, m), tried(|| Hex(written_signed(x, m))));
    }
    // clients
    for x in [1u64 << 32, (1 << 53) - 1, 1 << 53, (1 << 53) + 7, u64::MAX] { add(format!("ClientID::new({x}).get()"), format!("{x}"), tried(|| ClientID::new(x).get())); }
    let decode = |b: &[u8], rows: usize| -> (String, String) {
        let mut c = Case::of(Op::VecDecode);
        c.bytes = b.to_vec();
        c.out = gen::room(Kind::Vector, rows, 0);
        let m = said(&c);
        let doc = if m.no > 0 { format!("{}, place {}", name(m.no), m.next) } else { format!("{:?}, place {}", (0..m.out.n).map(|i| (m.out.longs[i], m.out.ints[i])).collect::<Vec<_>>(), m.next) };
        let rust = match catch_unwind(|| decoded(b, 0)) { Ok(Ok((v, n))) => format!("{:?}, place {n}", vector_rows(&v).iter().map(|r| (r.0, r.1)).collect::<Vec<_>>()), Ok(Err(e)) => format!("{e:?}"), Err(_) => tried(|| decoded(b, 0).map(|x| x.1)) };
        (doc, rust)
    };
    let big = { let mut b = vec![1]; b.extend(eighty(7, &[0x10, 5])); b };
    for (b, rows) in [(big, 4), (vec![2, 7, 1, 7, 5], 4), (vec![2, 7, 1, 7, 5], 1), (vec![2, 1, 0, 2, 0], 1), (vec![0x80, 0x80, 4], 4), (vec![], 4)] {
        let (d, r) = decode(&b, rows);
        add(format!("decode {}{}", if b.is_empty() { "no byte".into() } else { hex(&b) }, if rows < 4 { format!(" into {rows} row") } else { String::new() }), d, r);
    }
    // encoding order: the least two clients that come out falling
    let found = (0..64u64).flat_map(|y| (0..y).map(move |x| (x, y))).find(|&(x, y)| { let b = vector(&gen::vec_table(&[(x, 0), (y, 0)])).encode_v1(); b != sorted(&b) });
    if let Some((x, y)) = found {
        let t = gen::vec_table(&[(x, 0), (y, 0)]);
        add(format!("encode {{{x}:0, {y}:0}}"), hex(&model::vector_bytes(&model::vector(&t).unwrap())), tried(|| Hex(vector(&t).encode_v1())));
    }
    // tables: what the document's column says, as cases
    holds("id.insert_range a=0;;; client=3 start=5 end=5 out=0;9;9;9", "no=0 out=0;0;0;0");
    holds("id.len a=0;;;", "no=0 value=0");
    holds("merge a=2;;2,5,5,7; b=0;;; out=0;;9,9,9,9;", "no=5 out=0;;0,0,0,0;");
    holds("merge a=2;;2,5,5,7; b=1;;9,10; out=0;;9,9,9,9,9,9;", "no=5 out=0;;0,0,0,0,0,0;");
    holds("insert a=1;;2,3; start=7 end=5 out=0;;9,9;", "no=0 out=1;;2,3;");
    holds("insert a=1;;0,1; start=4294967294 end=4294967295 out=0;;9,9,9,9;", "no=0 out=2;;0,1,4294967294,4294967295;");
    holds("vector.set_min a=0;;; client=3 start=9 out=0;9;9;", "no=0 out=1;3;9;");
    holds("vector.set_max a=0;;; client=3 start=0 out=0;9;9;", "no=0 out=1;3;0;");
    holds("vector.partial_cmp a=1;1;0; b=0;;;", "no=0 value=2");
    let (full, zeros) = ((0..2048).map(|k| k.to_string()).collect::<Vec<_>>().join(","), vec!["0"; 2050].join(","));
    holds(&format!("insert a=1024;;{full}; start=2048 end=2049 out=0;;{zeros};"), &format!("no=4 out=0;;{zeros};"));
    let empty: IdMapInner<()> = IdMapInner::new();
    let with_empty = || { let mut t: IdMapInner<()> = IdMapInner::new(); t.insert_range(ClientID::new(3), 5..5, ()); t };
    add("id table {} insert_range(3, 5..5): len, is_empty, equals {}".into(), "0, true, true".into(), tried(|| { let t = with_empty(); (t.len(), t.is_empty(), t == empty) }));
    add("  .. then merge with {}: len".into(), "0".into(), tried(|| with_empty().merge(&empty).len()));
    add("  .. then diff with {}: len".into(), "0".into(), tried(|| with_empty().diff(&empty).len()));
    let show = |t: &crate::id_set::IdRange| t.iter().map(|(r, _)| format!("{}..{}", r.start, r.end)).collect::<Vec<_>>().join(", ");
    add("[2..5, 5..7] merge []".into(), "MALFORMED".into(), tried(|| { let mut t = table(&[(0, 2, 5), (0, 5, 7)]); t.merge(&table(&[])); show(&t) }));
    add("[2..5, 5..7] merge [9..10]".into(), "MALFORMED".into(), tried(|| { let mut t = table(&[(0, 2, 5), (0, 5, 7)]); t.merge(&table(&[(0, 9, 10)])); show(&t) }));
    add("[] insert 0..1, 2..3, .. 2048..2049: rows".into(), "FULL at the 1,025th".into(), tried(|| { let mut t = table(&[]); for k in 0..1025 { t.insert(2 * k..2 * k + 1) } t.len() }));
    add("[2..3] insert 7..5".into(), "[2..3]".into(), tried(|| { let mut t = table(&[(0, 2, 3)]); t.insert(7..5); show(&t) }));
    add("[0..1] insert 4294967294..4294967295".into(), "two rows".into(), tried(|| { let mut t = table(&[(0, 0, 1)]); t.insert(u32::MAX - 1..u32::MAX); show(&t) }));
    add("set_min (3, 9) on {}".into(), "{3:9}".into(), tried(|| { let mut v = vector(&Table::default()); v.set_min(ClientID::new(3), 9); vector_rows(&v).iter().map(|r| (r.0, r.1)).collect::<Vec<_>>() }));
    add("set_max (3, 0) on {}".into(), "{3:0}".into(), tried(|| { let mut v = vector(&Table::default()); v.set_max(ClientID::new(3), 0); vector_rows(&v).iter().map(|r| (r.0, r.1)).collect::<Vec<_>>() }));
    add("{1:0} against {}: order, same".into(), "Equal, no".into(), tried(|| { let (a, b) = (vector(&gen::vec_table(&[(1, 0)])), vector(&Table::default())); (a.partial_cmp(&b), a == b) }));
    v
}

/// What a declared count of 65,536 with nothing behind it costs the original.
pub fn declared() -> String {
    let mem = || std::fs::read_to_string("/proc/self/statm").ok().and_then(|s| s.split_whitespace().next().and_then(|x| x.parse::<u64>().ok())).unwrap_or(0) * 4;
    let t = std::time::Instant::now();
    let before = mem();
    let mut m: std::collections::HashMap<ClientID, u32, std::hash::BuildHasherDefault<crate::utils::client_hasher::ClientHasher>> = Default::default();
    m.try_reserve(65536).unwrap();
    format!("room for 65,536 declared clients: capacity {}, {} kB of address space, {:?}", m.capacity(), mem().saturating_sub(before), t.elapsed())
}
