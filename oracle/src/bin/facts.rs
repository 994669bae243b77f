//! facts [DEBUG]: each difference on its smallest input. DEBUG is the debug build of this program.
use oracle::facts;
fn main() {
    let all = facts::all();
    let Some(debug) = std::env::args().nth(1) else { for f in &all { println!("{}", f.rust) } return };
    let out = std::process::Command::new(debug).output().unwrap();
    let text = String::from_utf8(out.stdout).unwrap();
    let lines: Vec<&str> = text.lines().collect();
    assert_eq!(lines.len(), all.len());
    println!("| input | the rules | Rust debug | Rust release |\n|---|---|---|---|");
    for (f, d) in all.iter().zip(lines) { println!("| {} | {} | {} | {} |", f.what, f.document, d, f.rust) }
    println!("\n{}\n{}", facts::asked(), facts::declared());
}
