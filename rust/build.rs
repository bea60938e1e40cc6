// Where the program is for x86-64, target/staticlib/libloafheron.a is linked (`tests/archive` writes it, for x86-64 alone). Elsewhere
// the archive runs in a program of its own (src/lent/piped.rs).
use std::{env, path::Path};

fn main() {
    println!("cargo:rustc-check-cfg=cfg(linked)");
    println!("cargo:rerun-if-changed=build.rs");
    if env::var("CARGO_CFG_TARGET_ARCH").unwrap() != "x86_64" {
        return;
    }
    let here = env::var("CARGO_MANIFEST_DIR").unwrap();
    let dir = Path::new(&here).join("../target/staticlib");
    let archive = dir.join("libloafheron.a");
    assert!(archive.is_file(), "no target/staticlib/libloafheron.a: `tests/archive` first, or tests/run");
    println!("cargo:rustc-cfg=linked");
    println!("cargo:rustc-link-search=native={}", dir.display());
    println!("cargo:rustc-link-lib=static=loafheron");
    println!("cargo:rerun-if-changed={}", archive.display());
}
