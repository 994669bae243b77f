//! one CASE..: what each side answers. With no case: cases on standard input, one a line, and the
//! model's answers (ours too, which must be the same) on standard output.
use oracle::{case::*, model, original, ours};
use std::io::{BufRead, Write};
fn parsed(l: &str) -> Case {
    Case::parse(l).unwrap_or_else(|| {
        eprintln!("no case: {l}\nA case is written as a failing run prints it: read_u32 bytes=8001 at=0");
        std::process::exit(2)
    })
}
fn main() {
    let a: Vec<String> = std::env::args().skip(1).collect();
    if a.is_empty() {
        let mut out = std::io::BufWriter::new(std::io::stdout().lock());
        for l in std::io::stdin().lock().lines() {
            let l = l.unwrap();
            let c = parsed(&l);
            let m = model::answer(&c);
            if let Some(u) = ours::answer(&c) { assert_eq!(u, m, "{l}") }
            writeln!(out, "{}", m.line(c.op)).unwrap();
        }
        return;
    }
    for l in a {
        let c = parsed(&l);
        println!("{}", c.line());
        println!("  original {}", original::answer(&c).map_or("outside the comparison".into(), |o| o.line(c.op)));
        println!("  model    {}", model::answer(&c).line(c.op));
        println!("  ours     {}", ours::answer(&c).map_or("not linked".into(), |o| o.line(c.op)));
    }
}
