//! Links the archive that `tools/staticlib simp` writes.

fn main() {
    let archive = concat!(env!("CARGO_MANIFEST_DIR"), "/../../target/staticlib");
    println!("cargo:rustc-link-search=native={archive}");
    println!("cargo:rustc-link-lib=static=simp");
    println!("cargo:rerun-if-changed={archive}/libsimp.a");
}
