//! Plants each of document 01's four shortcuts (shortcuts/) in a copy of the twin, as a module of its own; with the
//! feature `misreadings` also each misreading of its sentences (misreadings/).
//!
//! An edit has `file:` lines, each followed by pairs of `old:` and `new:` lines; an `old:` text must occur exactly once
//! in the file, so that an edit which no longer fits the twin stops the build.

use std::fmt::Write;
use std::path::Path;
use std::{env, fs};

/// The twin's files that a copy is made of.
const FILES: [&str; 4] = ["board", "desk", "records", "words"];

fn main() {
    println!("cargo:rerun-if-changed=build.rs");
    println!("cargo:rerun-if-changed=../twin/src");
    let mut out = String::new();
    let all = env::var_os("CARGO_FEATURE_MISREADINGS").is_some();
    for folder in if all { &["shortcuts", "misreadings"][..] } else { &["shortcuts"] } {
        println!("cargo:rerun-if-changed={folder}");
        let entries = fs::read_dir(folder).unwrap_or_else(|e| panic!("{folder}: {e}"));
        let mut edits: Vec<_> = entries.map(|e| e.expect("an entry").path()).collect();
        edits.sort();
        let mut list = String::new();
        for path in &edits {
            let label = path.file_stem().and_then(|s| s.to_str()).expect("a name in UTF-8");
            copy(&mut out, label, &fs::read_to_string(path).expect("an edit"));
            writeln!(list, "planted!({label}),").unwrap();
        }
        let name = folder.to_uppercase();
        writeln!(out, "pub static {name}: [Planted; {}] = [\n{list}];", edits.len()).unwrap();
    }
    let to = Path::new(&env::var("OUT_DIR").expect("cargo sets OUT_DIR")).join("planted.rs");
    fs::write(to, out).expect("the copies are written");
}

/// A module with the twin's files, edited.
fn copy(out: &mut String, label: &str, edit: &str) {
    let mut files = FILES.map(|f| fs::read_to_string(format!("../twin/src/{f}.rs")).expect("the twin's source"));
    plant(&mut files, edit, label);
    writeln!(out, "#[allow(warnings, clippy::all)]\npub mod {label} {{").unwrap();
    for (name, text) in FILES.iter().zip(&files) {
        writeln!(out, "pub mod {name} {{\n{text}\n}}").unwrap();
    }
    writeln!(out, "}}").unwrap();
}

/// Applies an edit's pairs to the files.
fn plant(files: &mut [String; 4], edit: &str, label: &str) {
    let (mut file, mut old) = (None, None);
    for line in edit.lines().filter(|l| !l.starts_with('#') && !l.is_empty()) {
        let (what, text) =
            line.split_once(": ").unwrap_or_else(|| panic!("{label}: no `file:`, `old:` or `new:`: {line}"));
        match what {
            "file" => file = FILES.iter().position(|f| text == format!("src/{f}.rs")),
            "old" => old = Some(text.replace("\\n", "\n")),
            "new" => {
                let source = &mut files[file.unwrap_or_else(|| panic!("{label}: names no file of the twin"))];
                let old = old.take().unwrap_or_else(|| panic!("{label}: `new:` without `old:`"));
                assert_eq!(source.matches(&old).count(), 1, "{label}: must occur exactly once in the twin: {old}");
                *source = source.replace(&old, text);
            }
            _ => panic!("{label}: {line}"),
        }
    }
}
