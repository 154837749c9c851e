//! Links the proved operations: the archive that `rt lib` in crates/handheld writes, for x86-64.

fn main() {
    let archives = concat!(env!("CARGO_MANIFEST_DIR"), "/../crates/handheld/out");
    println!("cargo:rustc-link-search=native={archives}");
    println!("cargo:rustc-link-lib=static=handheld");
    println!("cargo:rerun-if-changed={archives}/libhandheld.a");
}
