//! bench [MS [SEED]]: measures, prints, and lays the tables into the file that SPEED names, in the part of this kind of machine.
#[cfg(not(all(rattle, pace)))]
fn main() { eprintln!("the proved libraries are not linked: RATTLE_LIB, PACE_LIB"); std::process::exit(2) }

// Before all other code of this program: with another BENCH_PAD every loop stands at another place.
#[cfg(all(rattle, pace))]
core::arch::global_asm!(concat!(".pushsection .text.bench_pad, \"ax\", @progbits\n.p2align 4\n.globl bench_pad\nbench_pad:\n.skip 16 + ", env!("BENCH_PAD"), "\n.popsection"));
#[cfg(all(rattle, pace))]
extern "C" { fn bench_pad(); }

#[cfg(all(rattle, pace))]
fn main() {
    use oracle::bench::*;
    use std::fmt::Write;
    let a: Vec<String> = std::env::args().collect();
    let ms = a.get(1).map_or(150, |s| s.parse().expect("MS"));
    let seed = a.get(2).map_or(1, |s| s.parse().expect("SEED"));
    let read = |f: &str| std::fs::read_to_string(f).unwrap_or_default();
    let load = || read("/proc/loadavg").split(' ').take(3).collect::<Vec<_>>().join(" ");
    let before = load();
    std::hint::black_box(bench_pad as unsafe extern "C" fn());
    let mut b = Bench::new(ms, seed);
    // Numbers are measured in several builds, a loop at another place in each; the least time counts.
    let places = std::env::var("BENCH_PLACES").unwrap_or_default();
    b.seen(read(&places).lines().map(|l| l.split(' ').map(|x| x.parse().unwrap()).collect()).collect());
    b.numbers();
    if std::env::var("BENCH_ONLY").is_ok() {
        std::fs::write(&places, b.all_seen().iter().map(|v| v.iter().map(|x| format!("{x:?}")).collect::<Vec<_>>().join(" ") + "\n").collect::<String>()).unwrap();
        return;
    }
    b.ranges();
    b.edits();
    b.ids();
    b.vectors();
    b.grow();
    if let Ok(d) = std::env::var("BENCH_INPUTS") {
        let script = std::env::var("BENCH_NODE").unwrap_or_default();
        if let Ok(o) = std::process::Command::new("node").arg(&script).arg(&d).output() {
            for l in String::from_utf8_lossy(&o.stdout).lines() {
                let Some((name, ns)) = l.split_once('\t') else { continue };
                println!("node: {name} {ns} ns");
                for x in b.out.iter_mut().filter(|x| x.name == name || x.name == format!("{name}, the loop inside")) { x.peers.push(("lib0, Yjs", ns.parse().unwrap())) }
            }
        }
    }
    let after = load();
    let cores = read("/proc/cpuinfo").lines().filter(|l| l.starts_with("processor")).count();
    let cpu = std::process::Command::new("lscpu").output().map_or(String::new(), |o| String::from_utf8_lossy(&o.stdout).into_owned());
    let model = cpu.lines().find_map(|l| l.strip_prefix("Model name:")).map_or("?", str::trim);
    let ns = |x: f64| if x < 100.0 { format!("{x:.2}") } else if x < 10_000.0 { format!("{x:.0}") } else { format!("{:.1} µs", x / 1000.0) };
    let mut s = String::new();
    writeln!(s, "Machine: {model}, {cores} cores, {}; {}. Load average before {before}, after {after}{}. {} ms or more for each way of a row, seed {seed}; {}.\n",
        read("/proc/version").split(' ').take(3).collect::<Vec<_>>().join(" "), env!("RUSTC_SAYS"),
        if before.split(' ').next().and_then(|x| x.parse::<f64>().ok()).unwrap_or(0.0) > 1.5 { " (busy with other work: take the ratios, not the times)" } else { "" }, ms,
        if std::env::var("BENCH_SHIM").is_ok() { "yrs over the small stand-ins for smallvec: not the true crate" } else { "yrs over Debian's smallvec" }).unwrap();
    let (mut met, mut all) = (0, 0);
    for group in ["Numbers", "Range tables", "Id tables", "State vectors"] {
        writeln!(s, "### {group}\n\n| | yrs | yrs without its clone | ours | copy | ours / yrs | goal | |\n|---|---|---|---|---|---|---|---|").unwrap();
        for l in b.out.iter().filter(|l| l.group == group) {
            let (goal, ok) = match (l.goal, l.limit) { (Some(g), _) => (format!("{g:.2}"), Some(l.ours / l.yrs <= g)), (_, Some(t)) => (format!("{} ns", ns(t)), Some(l.ours <= t)), _ => ("-".into(), None) };
            if let Some(ok) = ok { all += 1; met += ok as u32 }
            writeln!(s, "| {} | {} | {} | {} | {} | {:.2} | {goal} | {} |", l.name, ns(l.yrs), l.alone.map_or("-".into(), ns), ns(l.ours), ns(l.copy), l.ours / l.yrs, match ok { Some(true) => "met", Some(false) => "**not met**", None => "" }).unwrap();
        }
        writeln!(s).unwrap();
    }
    writeln!(s, "{met} of {all} goals met. Times in ns unless µs is said.\n").unwrap();
    if !b.skipped.is_empty() { writeln!(s, "Not measured, because the right result has more than 1,024 rows and is refused: {}.\n", b.skipped.join("; ")).unwrap() }
    if b.out.iter().any(|l| !l.peers.is_empty()) {
        writeln!(s, "### Peers\n\n| | ours | peers |\n|---|---|---|").unwrap();
        for l in b.out.iter().filter(|l| !l.peers.is_empty()) {
            writeln!(s, "| {} | {} | {} |", l.name, ns(l.ours), l.peers.iter().map(|(n, t)| format!("{n} {}{}", ns(*t), if *t < l.ours { " **ahead of us**" } else { "" })).collect::<Vec<_>>().join("; ")).unwrap();
        }
        writeln!(s).unwrap();
    }
    writeln!(s, "### What parts of it cost\n\n| | ns |\n|---|---|").unwrap();
    for (n, t) in &b.parts { writeln!(s, "| {n} | {} |", ns(*t)).unwrap() }
    writeln!(s, "\n### How cost grows\n\nFor each size: our time, our time for a row of the inputs, our time over yrs's. Sizes are rows a table, clients a vector.\n\n| | 16 | 64 | 256 | 1,024 |\n|---|---|---|---|---|").unwrap();
    for (name, v) in &b.growth {
        let cell = |x: &Option<(usize, f64, f64)>| x.map_or("-".into(), |(n, y, o)| format!("{}; {:.2}{}", ns(o), o / n as f64, if y.is_nan() { String::new() } else { format!("; {:.2}", o / y) }));
        writeln!(s, "| {name} | {} |", v.iter().map(cell).collect::<Vec<_>>().join(" | ")).unwrap();
    }
    let arch = std::env::consts::ARCH;
    let (from, to) = (format!("<!-- measured on {arch} -->\n"), format!("<!-- end of {arch} -->"));
    if let Ok(file) = std::env::var("SPEED") {
        let old = read(&file);
        let (head, tail) = match (old.split_once(&from), old.split_once(&to)) { (Some((h, _)), Some((_, t))) => (h.to_string(), t.to_string()), _ => (format!("{old}\n"), "\n".into()) };
        std::fs::write(&file, format!("{head}{from}{s}{to}{tail}")).unwrap();
        println!("{met} of {all} goals met; {file}");
    }
}
