//! huge [KB]: a state vector that declares up to 2^32-1 pairs and has none, or one. What the rules say, what ours says (they must agree),
//! and what the original does in a process of its own that may take KB kilobytes of memory (4,194,304, 4 GiB): it reserves room first.
use oracle::case::*;
use oracle::{gen, model, original, ours};
use std::process::Command;

fn main() {
    let a: Vec<String> = std::env::args().collect();
    if a.get(1).map_or(false, |w| w == "original") {
        let bytes: Vec<u8> = a[2..].iter().map(|x| x.parse().unwrap()).collect();
        let said = match original::decoded(&bytes, 0) { Ok((v, n)) => format!("{:?}, place {n}", original::vector_rows(&v)), Err(e) => format!("{e:?}") };
        // of a TryReserveError only the bytes that it asked for
        let said = said.split_once("(TryReserveError").map_or(said.clone(), |(name, rest)| format!("{name}: {} bytes", rest.chars().skip_while(|c| !c.is_ascii_digit()).take_while(|c| c.is_ascii_digit()).collect::<String>()));
        let status = std::fs::read_to_string("/proc/self/status").unwrap_or_default();
        let peak = |name: &str| status.lines().find_map(|l| l.strip_prefix(name)).and_then(|l| l.split_whitespace().next()?.parse::<u64>().ok()).map_or("?".into(), |kb| format!("{} MB", kb / 1024));
        println!("{said} ({} asked for, {} used)", peak("VmPeak:"), peak("VmHWM:"));
        return;
    }
    let kb: u64 = a.get(1).map_or(4 << 20, |s| s.parse().expect("KB"));
    let mut differ = 0;
    println!("| declared | behind it | the rules | ours | the original, in {kb} kB |\n|---|---|---|---|---|");
    for n in gen::HUGE { for tail in [&[][..], &[7, 1]] {
        let mut c = Case::of(Op::VecDecode);
        c.bytes = gen::declared(n, tail);
        c.out = gen::room(Kind::Vector, 4, 1);
        let (m, u) = (model::answer(&c), ours::answer(&c));
        if u.as_ref().map_or(false, |u| *u != m) { differ += 1 }
        let words: Vec<String> = c.bytes.iter().map(|x| x.to_string()).collect();
        let out = Command::new("sh").arg("-c").arg(format!("ulimit -v {kb}; exec \"$0\" original \"$@\"")).arg(&a[0]).args(&words).output().unwrap();
        let said = String::from_utf8_lossy(&out.stdout).trim().to_string();
        let no = |x: &Answer| ["done", "END", "LONG", "RANGE", "FULL", "MALFORMED", "SIGN"][x.no as usize];
        println!("| {n} | {} | {} | {} | {} |", if tail.is_empty() { "nothing" } else { "one pair" }, no(&m), u.as_ref().map_or("not linked", no), if said.is_empty() { format!("dies: {}", out.status) } else { said });
    } }
    println!("{differ} differ");
    std::process::exit((differ > 0) as i32);
}
