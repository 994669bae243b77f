//! Lays the original files out as they were, byte for byte, in OUT_DIR/yrs. Of block.rs only the
//! parts that stand alone are built (ClientID and ID; BlockRange), cut out by their first and last
//! lines. Links the proved library where RATTLE_LIB names the folder of libffi.a.
use std::{env, fs, path::PathBuf};

const WHOLE: [&str; 10] = [
    "ids.rs", "id_set.rs", "state_vector.rs",
    "encoding/read.rs", "encoding/varint.rs", "encoding/write.rs",
    "updates/decoder.rs", "updates/encoder.rs",
    "utils/mod.rs", "utils/client_hasher.rs",
];

// The boundary as Rust, made from its source.
include!("../bindings/boundary.rs");

/// The text from `first` up to `last`, which must follow it.
fn cut(text: &str, first: &str, last: &str) -> String {
    let at = text.find(first).unwrap_or_else(|| panic!("block.rs lacks {first:?}"));
    let rest = &text[at..];
    let end = rest.find(last).unwrap_or_else(|| panic!("block.rs lacks {last:?}"));
    rest[..end].to_string()
}

fn main() {
    println!("cargo:rerun-if-env-changed=RATTLE_LIB");
    println!("cargo:rustc-check-cfg=cfg(rattle)");
    if let Ok(dir) = env::var("RATTLE_LIB") {
        println!("cargo:rerun-if-changed={dir}/libffi.a");
        println!("cargo:rustc-link-search=native={dir}");
        println!("cargo:rustc-link-lib=static=ffi");
        println!("cargo:rustc-cfg=rattle");
        let src = concat!(env!("CARGO_MANIFEST_DIR"), "/../crates/ffi/src/lib.rt");
        println!("cargo:rerun-if-changed={src}");
        println!("cargo:rerun-if-changed={}", concat!(env!("CARGO_MANIFEST_DIR"), "/../bindings/boundary.rs"));
        fs::write(PathBuf::from(env::var("OUT_DIR").unwrap()).join("boundary.rs"), boundary(&fs::read_to_string(src).unwrap())).unwrap();
    }
    // the measuring loops in the library's own language, where PACE_LIB names the folder of libpace.a
    println!("cargo:rerun-if-env-changed=PACE_LIB");
    println!("cargo:rustc-check-cfg=cfg(pace)");
    if let Ok(dir) = env::var("PACE_LIB") {
        println!("cargo:rerun-if-changed={dir}/libpace.a");
        println!("cargo:rustc-link-search=native={dir}");
        println!("cargo:rustc-link-lib=static=pace");
        println!("cargo:rustc-cfg=pace");
        let src = concat!(env!("CARGO_MANIFEST_DIR"), "/../crates/pace/src/lib.rt");
        println!("cargo:rerun-if-changed={src}");
        fs::write(PathBuf::from(env::var("OUT_DIR").unwrap()).join("pace.rs"), boundary(&fs::read_to_string(src).unwrap())).unwrap();
    }
    // other libraries for the measurements, where PEERS_LIB names the folder of libpeers.a
    println!("cargo:rerun-if-env-changed=PEERS_LIB");
    println!("cargo:rustc-check-cfg=cfg(peers)");
    if let Ok(dir) = env::var("PEERS_LIB") {
        println!("cargo:rerun-if-changed={dir}/libpeers.a");
        println!("cargo:rustc-link-search=native={dir}");
        println!("cargo:rustc-link-lib=static=peers");
        for l in ["roaring", "protobuf", "stdc++"] { println!("cargo:rustc-link-lib=dylib={l}") }
        println!("cargo:rustc-cfg=peers");
    }
    // how far on all code of the measuring program stands
    println!("cargo:rerun-if-env-changed=BENCH_PAD");
    println!("cargo:rustc-env=BENCH_PAD={}", env::var("BENCH_PAD").unwrap_or("0".into()));
    let rustc = std::process::Command::new(env::var("RUSTC").unwrap()).arg("--version").output().unwrap();
    println!("cargo:rustc-env=RUSTC_SAYS={}", String::from_utf8_lossy(&rustc.stdout).trim());
    println!("cargo:rerun-if-env-changed=YRS_SRC");
    println!("cargo:rerun-if-changed=build.rs");
    let from = PathBuf::from(env::var("YRS_SRC").expect("set YRS_SRC to the folder of yrs 0.28.0 (src/ids.rs ..)")).join("src");
    let out = PathBuf::from(env::var("OUT_DIR").unwrap()).join("yrs");
    let read = |name: &str| {
        let src = from.join(name);
        println!("cargo:rerun-if-changed={}", src.display());
        fs::read_to_string(&src).unwrap_or_else(|e| panic!("{}: {e}", src.display()))
    };
    for name in WHOLE {
        let to = out.join(name);
        fs::create_dir_all(to.parent().unwrap()).unwrap();
        fs::write(&to, read(name)).unwrap();
    }
    let block = read("block.rs");
    let mut text = cut(&block, "#[cfg(not(feature = \"small-client\"))]\ntype CID", "#[repr(transparent)]\n#[derive(Copy, Clone)]\npub(crate) struct BlockRef");
    text.push_str(&cut(&block, "/// Describes a consecutive range of updates (identified by their [ID]s).", "    pub(crate) fn integrate(&mut self, pivot: u32)"));
    text.push_str("}\n");
    fs::write(out.join("block_cut.rs"), text).unwrap();

    let p = |n: &str| format!("{:?}", out.join(n).display().to_string());
    let mods = format!(
"#[path = {ids}] pub mod ids;
#[path = {idset}] pub mod id_set;
#[path = {sv}] pub mod state_vector;
pub mod encoding {{
    #[path = {read}] pub mod read;
    #[path = {varint}] pub mod varint;
    #[path = {write}] pub mod write;
}}
pub mod updates {{
    #[path = {dec}] pub mod decoder;
    #[path = {enc}] pub mod encoder;
}}
#[path = {utils}] pub mod utils;
pub mod block {{
    use serde::{{Deserialize, Serialize}};
    use std::ops::Range;
    include!({block});
}}
",
        ids = p("ids.rs"), idset = p("id_set.rs"), sv = p("state_vector.rs"),
        read = p("encoding/read.rs"), varint = p("encoding/varint.rs"), write = p("encoding/write.rs"),
        dec = p("updates/decoder.rs"), enc = p("updates/encoder.rs"), utils = p("utils/mod.rs"),
        block = p("block_cut.rs"));
    fs::write(out.join("mods.rs"), mods).unwrap();
}
