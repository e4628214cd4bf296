//! Points the linker to the proved static library, and says how to build it where it is missing.

use std::path::PathBuf;

fn main() {
    let here = PathBuf::from(std::env::var("CARGO_MANIFEST_DIR").expect("cargo sets CARGO_MANIFEST_DIR"));
    let folder = here.join("../../target/staticlib");
    let archive = folder.join("liblane_c.a");
    println!("cargo:rerun-if-changed=build.rs");
    println!("cargo:rerun-if-changed={}", archive.display());
    if !archive.exists() {
        let missing = "target/staticlib/liblane_c.a is missing: run `./lane build` in the root of the repository";
        println!("cargo:warning={missing}");
        eprintln!("\n{missing}\n");
        std::process::exit(1);
    }
    println!("cargo:rustc-link-search=native={}", folder.display());
    println!("cargo:rustc-link-lib=static=lane_c");
}
