//! One call of one routine with everything it is lent, and its answer with everything it leaves.
use std::fmt::Write;

#[derive(Clone, Copy, PartialEq, Eq, Debug, PartialOrd, Ord)]
pub enum Int { U8, U32, U64, Usize, I8, I16, I32, I64, Isize }
pub const INTS: [Int; 9] = [Int::U8, Int::U32, Int::U64, Int::Usize, Int::I8, Int::I16, Int::I32, Int::I64, Int::Isize];
pub const SIGNED: [Int; 5] = [Int::I8, Int::I16, Int::I32, Int::I64, Int::Isize];

impl Int {
    pub fn name(self) -> &'static str {
        match self { Int::U8 => "u8", Int::U32 => "u32", Int::U64 => "u64", Int::Usize => "usize", Int::I8 => "i8", Int::I16 => "i16", Int::I32 => "i32", Int::I64 => "i64", Int::Isize => "isize" }
    }
    pub fn least(self) -> i128 {
        match self { Int::I8 => i8::MIN as i128, Int::I16 => i16::MIN as i128, Int::I32 => i32::MIN as i128, Int::I64 | Int::Isize => i64::MIN as i128, _ => 0 }
    }
    pub fn most(self) -> i128 {
        match self {
            Int::U8 => u8::MAX as i128, Int::U32 => u32::MAX as i128, Int::U64 | Int::Usize => u64::MAX as i128,
            Int::I8 => i8::MAX as i128, Int::I16 => i16::MAX as i128, Int::I32 => i32::MAX as i128, Int::I64 | Int::Isize => i64::MAX as i128,
        }
    }
}

/// A public routine. Those without a prefix are of range tables.
#[derive(Clone, Copy, PartialEq, Eq, Debug, PartialOrd, Ord)]
pub enum Op {
    Read(Int), ReadSigned(Int), Write(Int), WriteSigned(Int),
    Contains, FindStart, ClockStart, ClockEnd, Len, IsEmpty, Get, Insert, Remove, Merge, Exclude, Intersect, FromRanges,
    IdInsert, IdContains, IdMerge, IdDiff, IdIntersect, IdIsEmpty, IdLen, IdCapture,
    VecGet, VecSetMin, VecSetMax, VecMerge, VecCompare, VecEncode, VecDecode,
}
use Op::*;
pub const RANGE_OPS: [Op; 13] = [Contains, FindStart, ClockStart, ClockEnd, Len, IsEmpty, Get, Insert, Remove, Merge, Exclude, Intersect, FromRanges];
pub const ID_OPS: [Op; 8] = [IdInsert, IdContains, IdMerge, IdDiff, IdIntersect, IdIsEmpty, IdLen, IdCapture];
pub const VEC_OPS: [Op; 7] = [VecGet, VecSetMin, VecSetMax, VecMerge, VecCompare, VecEncode, VecDecode];
pub fn ops() -> Vec<Op> {
    let mut all: Vec<Op> = INTS.iter().map(|&i| Read(i)).collect();
    all.extend(SIGNED.iter().map(|&i| ReadSigned(i)));
    all.extend(INTS.iter().map(|&i| Write(i)));
    all.extend(SIGNED.iter().map(|&i| WriteSigned(i)));
    all.extend(RANGE_OPS); all.extend(ID_OPS); all.extend(VEC_OPS);
    all
}

#[derive(Clone, Copy, PartialEq, Eq, Debug)]
pub enum Kind { Number, Range, Id, Vector }

impl Op {
    pub fn kind(self) -> Kind {
        match self { Read(_) | ReadSigned(_) | Write(_) | WriteSigned(_) => Kind::Number, o if RANGE_OPS.contains(&o) => Kind::Range, o if ID_OPS.contains(&o) => Kind::Id, _ => Kind::Vector }
    }
    pub fn name(self) -> String {
        let n = match self {
            Read(i) => return format!("read_{}", i.name()), ReadSigned(i) => return format!("read_signed_{}", i.name()),
            Write(i) => return format!("write_{}", i.name()), WriteSigned(i) => return format!("write_signed_{}", i.name()),
            Contains => "contains_clock", FindStart => "find_start", ClockStart => "clock_start", ClockEnd => "clock_end", Len => "len", IsEmpty => "is_empty", Get => "get",
            Insert => "insert", Remove => "remove", Merge => "merge", Exclude => "exclude", Intersect => "intersect", FromRanges => "from_ranges",
            IdInsert => "id.insert_range", IdContains => "id.contains", IdMerge => "id.merge", IdDiff => "id.diff", IdIntersect => "id.intersect",
            IdIsEmpty => "id.is_empty", IdLen => "id.len", IdCapture => "id.capture",
            VecGet => "vector.get", VecSetMin => "vector.set_min", VecSetMax => "vector.set_max", VecMerge => "vector.merge", VecCompare => "vector.partial_cmp",
            VecEncode => "vector.encode", VecDecode => "vector.decode",
        };
        n.to_string()
    }
    pub fn reads(self) -> bool { matches!(self, Read(_) | ReadSigned(_)) }
    pub fn two_tables(self) -> bool { matches!(self, Merge | Exclude | Intersect | IdMerge | IdDiff | IdIntersect | VecMerge | VecCompare) }
    pub fn takes_table(self) -> bool { self.kind() != Kind::Number && self != VecDecode }
    pub fn gives_table(self) -> bool {
        matches!(self, Insert | Remove | Merge | Exclude | Intersect | FromRanges | IdInsert | IdMerge | IdDiff | IdIntersect | IdCapture | VecSetMin | VecSetMax | VecMerge | VecDecode)
    }
}

/// A count and the lent slices: a range table has its rows in `ints`; an id table its clients,
/// starts and ends in `longs`, `ints` and `more`; a vector its clients and clocks in `longs`, `ints`.
#[derive(Clone, Debug, Default, PartialEq, Eq)]
pub struct Table { pub n: usize, pub longs: Vec<u64>, pub ints: Vec<u32>, pub more: Vec<u32> }

#[derive(Clone, Debug, PartialEq, Eq)]
pub struct Case {
    pub op: Op,
    /// what a reader reads; what stands in a writer's buffer before
    pub bytes: Vec<u8>,
    pub at: usize,
    /// the value to write, and the flag of a `Signed`
    pub int: i128,
    pub flag: bool,
    pub a: Table,
    pub b: Table,
    pub client: u64,
    /// a clock, the start of a range, or an index
    pub start: u64,
    pub end: u32,
    /// the output as it is lent
    pub out: Table,
}
impl Case {
    pub fn of(op: Op) -> Case {
        Case { op, bytes: vec![], at: 0, int: 0, flag: false, a: Table::default(), b: Table::default(), client: 0, start: 0, end: 0, out: Table::default() }
    }
}

/// `no` is the rules' refusal number; 23 stands for "2 or 3", which the original doesn't tell apart.
/// Optional answers and yes/no are in `some`, a pair in `value`, `second`; a verdict is 0 none, 1 Less,
/// 2 Equal, 3 Greater; `bytes` is the writer's buffer after, `out` the table with its whole slices.
#[derive(Clone, Debug, Default, PartialEq, Eq)]
pub struct Answer { pub no: u32, pub value: u64, pub second: u64, pub some: bool, pub next: usize, pub bytes: Vec<u8>, pub out: Table }

/// A reader's whole answer.
#[derive(Clone, Copy, Debug, PartialEq, Eq)]
pub struct Num { pub no: u32, pub value: u64, pub some: bool, pub next: usize }
impl Num {
    pub fn refused(no: u32, at: usize) -> Num { Num { no, value: 0, some: false, next: at } }
    pub fn same(self, two: Num) -> bool { self == two || self.no == LONG_OR_RANGE && (two.no == LONG || two.no == RANGE) && self == Num { no: LONG_OR_RANGE, ..two } }
}
impl From<Num> for Answer { fn from(n: Num) -> Answer { Answer { no: n.no, value: n.value, some: n.some, next: n.next, ..Answer::default() } } }

pub const DONE: u32 = 0;
pub const END: u32 = 1;
pub const LONG: u32 = 2;
pub const RANGE: u32 = 3;
pub const FULL: u32 = 4;
pub const MALFORMED: u32 = 5;
pub const SIGN: u32 = 6;
pub const LONG_OR_RANGE: u32 = 23;

/// The same answer, where the first may be the original's.
pub fn same(one: &Answer, two: &Answer) -> bool {
    if one.no == LONG_OR_RANGE && (two.no == LONG || two.no == RANGE) {
        let mut x = one.clone();
        x.no = two.no;
        return x == *two;
    }
    one == two
}

// ---- a case as a line, to show it and to run it again

fn hex(b: &[u8]) -> String { if b.is_empty() { "-".into() } else { b.iter().map(|x| format!("{x:02X}")).collect() } }
fn list<T: ToString>(v: &[T]) -> String { v.iter().map(|x| x.to_string()).collect::<Vec<_>>().join(",") }
impl Table {
    fn line(&self) -> String { format!("{};{};{};{}", self.n, list(&self.longs), list(&self.ints), list(&self.more)) }
    fn parse(s: &str) -> Option<Table> {
        fn nums<T: std::str::FromStr>(s: &str) -> Option<Vec<T>> { if s.is_empty() { return Some(vec![]) } s.split(',').map(|x| x.parse().ok()).collect() }
        let mut p = s.split(';');
        Some(Table { n: p.next()?.parse().ok()?, longs: nums(p.next()?)?, ints: nums(p.next()?)?, more: nums(p.next()?)? })
    }
}
impl Case {
    pub fn line(&self) -> String {
        let none = Case::of(self.op);
        let mut s = self.op.name();
        let k = self.op.kind();
        if k == Kind::Number || self.bytes != none.bytes || matches!(self.op, VecDecode | VecEncode) { write!(s, " bytes={}", hex(&self.bytes)).unwrap(); }
        if k == Kind::Number || matches!(self.op, VecDecode | VecEncode) { write!(s, " at={}", self.at).unwrap(); }
        if matches!(self.op, Write(_) | WriteSigned(_)) { write!(s, " int={}", self.int).unwrap(); }
        if matches!(self.op, WriteSigned(_)) { write!(s, " flag={}", self.flag).unwrap(); }
        if self.op.takes_table() { write!(s, " a={}", self.a.line()).unwrap(); }
        if self.op.two_tables() { write!(s, " b={}", self.b.line()).unwrap(); }
        if self.client != 0 { write!(s, " client={}", self.client).unwrap(); }
        if self.start != 0 { write!(s, " start={}", self.start).unwrap(); }
        if self.end != 0 { write!(s, " end={}", self.end).unwrap(); }
        if self.op.gives_table() { write!(s, " out={}", self.out.line()).unwrap(); }
        s
    }
    pub fn parse(line: &str) -> Option<Case> {
        let mut words = line.split_whitespace();
        let name = words.next()?;
        let mut c = Case::of(ops().into_iter().find(|o| o.name() == name)?);
        for w in words {
            let (k, v) = w.split_once('=')?;
            match k {
                "bytes" => c.bytes = if v == "-" { vec![] } else { (0..v.len() / 2).map(|i| u8::from_str_radix(&v[2 * i..2 * i + 2], 16).ok()).collect::<Option<_>>()? },
                "at" => c.at = v.parse().ok()?,
                "int" => c.int = v.parse().ok()?,
                "flag" => c.flag = v.parse().ok()?,
                "a" => c.a = Table::parse(v)?,
                "b" => c.b = Table::parse(v)?,
                "client" => c.client = v.parse().ok()?,
                "start" => c.start = v.parse().ok()?,
                "end" => c.end = v.parse().ok()?,
                "out" => c.out = Table::parse(v)?,
                _ => return None,
            }
        }
        Some(c)
    }
}
impl Answer {
    pub fn line(&self, op: Op) -> String {
        let mut s = format!("no={}", self.no);
        if let Read(i) | ReadSigned(i) = op { if i.least() < 0 { write!(s, " value={}", self.value as i64) } else { write!(s, " value={}", self.value) }.unwrap(); }
        if matches!(op, FindStart | ClockStart | ClockEnd | Len | Get | IdLen | VecGet | VecCompare) { write!(s, " value={}", self.value).unwrap(); }
        if op == Get { write!(s, " second={}", self.second).unwrap(); }
        if matches!(op, ReadSigned(_) | Contains | IsEmpty | FindStart | ClockStart | ClockEnd | Get | IdContains | IdIsEmpty) { write!(s, " some={}", self.some).unwrap(); }
        if op.kind() == Kind::Number || matches!(op, VecEncode | VecDecode) { write!(s, " next={}", self.next).unwrap(); }
        if matches!(op, Write(_) | WriteSigned(_) | VecEncode) { write!(s, " bytes={}", hex(&self.bytes)).unwrap(); }
        if op.gives_table() { write!(s, " out={}", self.out.line()).unwrap(); }
        s
    }
}
