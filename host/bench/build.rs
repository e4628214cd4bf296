//! Compiles the few C functions over WiredTiger (src/wired.c) where Debian's libwiredtiger-dev:amd64 is installed, and leaves
//! it out where it is not, or where `LANE_WIREDTIGER=missing` says so. ./lane sets that, so that what is installed later
//! is found.

use std::path::Path;
use std::process::Command;

fn main() {
    println!("cargo:rustc-check-cfg=cfg(wiredtiger)");
    println!("cargo:rerun-if-changed=build.rs");
    println!("cargo:rerun-if-changed=src/wired.c");
    println!("cargo:rerun-if-env-changed=LANE_WIREDTIGER");
    let out = std::env::var("OUT_DIR").expect("cargo sets OUT_DIR");
    // the compiler that links, where host/x86.sh names one: it finds a library for the processor that the bench is for
    let cc = std::env::var("RUSTC_LINKER").unwrap_or("cc".into());
    let missing = std::env::var("LANE_WIREDTIGER").is_ok_and(|said| said == "missing");
    if missing || !has_library(&cc) {
        return;
    }
    let run = |program: &str, words: &[&str]| Command::new(program).args(words).status().is_ok_and(|s| s.success());
    let (object, archive) = (format!("{out}/wired.o"), format!("{out}/libwired.a"));
    if run(&cc, &["-O2", "-Wall", "-c", "src/wired.c", "-o", &object]) && run("ar", &["rcs", &archive, &object]) {
        println!("cargo:rustc-link-search=native={out}");
        println!("cargo:rustc-link-lib=static=wired");
        println!("cargo:rustc-link-lib=wiredtiger");
        println!("cargo:rustc-cfg=wiredtiger");
    } else {
        println!("cargo:warning=src/wired.c did not compile: the bench is built without WiredTiger");
    }
}

/// Whether this compiler finds WiredTiger's library. It prints the path, or the bare name where there is none.
fn has_library(cc: &str) -> bool {
    let printed = Command::new(cc).arg("-print-file-name=libwiredtiger.so").output();
    printed.is_ok_and(|out| Path::new(String::from_utf8_lossy(&out.stdout).trim()).is_absolute())
}
