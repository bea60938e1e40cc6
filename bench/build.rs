// Links target/staticlib/libgauge.a, which `tests/archive gauge` writes for x86-64 alone.
use std::{env, path::Path};

fn main() {
    let arch = env::var("CARGO_CFG_TARGET_ARCH").unwrap();
    assert!(arch == "x86_64", "libgauge.a is for x86-64, and this build is for {arch}");
    let here = env::var("CARGO_MANIFEST_DIR").unwrap();
    let dir = Path::new(&here).join("../target/staticlib");
    let archive = dir.join("libgauge.a");
    assert!(archive.is_file(), "no target/staticlib/libgauge.a: `tests/archive gauge` first, or bench/run");
    println!("cargo:rustc-link-search=native={}", dir.display());
    println!("cargo:rustc-link-lib=static=gauge");
    println!("cargo:rerun-if-changed={}", archive.display());
}
