//! What the proved archive exports, include/lane.h and the Rust declarations must say the same: every function with its
//! parameters and every struct with its fields, by name, type and order. The prover sees names and no order, and a linker
//! sees neither: exchanged parameters of one type would be proved, compiled and linked.

use read::{Item, Part, Side};
use std::fs;
use std::path::Path;

mod read;

/// Where a declared list of items is not the exported one, each with the place of the fault.
fn faults(exported: &Side, declared: &Side, what: &str) -> Vec<String> {
    let mut faults: Vec<String> = [exported, declared].iter().flat_map(|side| side.faults.clone()).collect();
    faults.extend([exported, declared].iter().flat_map(|side| unknown_types(side)));
    let same = |a: &Item, b: &Item| a.name == b.name && a.result.is_some() == b.result.is_some();
    for item in &exported.items {
        match declared.items.iter().find(|other| same(item, other)) {
            Some(other) => faults.extend(differences(item, other)),
            None => faults.push(format!("{what} has no {}, which {} has", item.name, item.place)),
        }
    }
    for item in &declared.items {
        if !exported.items.iter().any(|other| same(item, other)) {
            faults.push(format!("{}: {} is not exported", item.place, item.name));
        }
    }
    faults
}

/// Every type that crosses is a number, a pointer to numbers, or a struct whose layout is fixed.
fn unknown_types(side: &Side) -> Vec<String> {
    const NUMBERS: [&str; 6] = ["u8", "u16", "u32", "u64", "usize", "()"];
    let known = |of: &str| {
        let of = of.trim_start_matches("*mut ").trim_start_matches("*const ");
        NUMBERS.contains(&of) || side.items.iter().any(|item| item.result.is_none() && item.name == of)
    };
    let mut faults = Vec::new();
    for item in &side.items {
        for of in item.parts.iter().map(|part| &part.of).chain(&item.result) {
            if !known(of) {
                faults.push(format!("{}: {}: `{of}` is no number and no C struct", item.place, item.name));
            }
        }
    }
    faults
}

fn differences(exported: &Item, declared: &Item) -> Vec<String> {
    let mut faults = Vec::new();
    let Item { name, place, .. } = declared;
    let kind = if exported.result.is_some() { "parameter" } else { "field" };
    let (many, much) = (exported.parts.len(), declared.parts.len());
    if many != much {
        faults.push(format!("{place}: {name} has {much} {kind}s, in {} {many}", exported.place));
    }
    let show = |part: &Part| format!("`{}: {}`", part.name, part.of);
    for (i, (a, b)) in exported.parts.iter().zip(&declared.parts).enumerate() {
        if a != b {
            let (n, a, b) = (i + 1, show(a), show(b));
            faults.push(format!("{place}: {name}: {kind} {n} is {b}, in {} {a}", exported.place));
        }
    }
    if let (Some(a), Some(b)) = (&exported.result, &declared.result) {
        if a != b {
            faults.push(format!("{place}: {name} gives `{b}`, in {} `{a}`", exported.place));
        }
    }
    faults
}

/// All files with this ending in a folder of the repository.
fn all(folder: &str, ending: &str, read: fn(&str, &str) -> Side) -> Side {
    let root = Path::new(env!("CARGO_MANIFEST_DIR")).join("../..");
    let entries = fs::read_dir(root.join(folder)).unwrap_or_else(|e| panic!("{folder}: {e}"));
    let mut names: Vec<String> =
        entries.map(|entry| entry.expect("an entry").file_name().into_string().expect("a name in UTF-8")).collect();
    names.retain(|name| name.ends_with(ending));
    names.sort();
    let mut side = Side::default();
    for name in names {
        let file = format!("{folder}/{name}");
        let text = fs::read_to_string(root.join(&file)).unwrap_or_else(|e| panic!("{file}: {e}"));
        let Side { items, faults } = read(&file, &text);
        side.items.extend(items);
        side.faults.extend(faults);
    }
    side
}

/// What the archive's crate exports, with the structs of the library under it, whose functions are in no archive.
fn exported() -> Side {
    let mut side = all("crates/lane_c_c/src", ".rt", read::rust);
    let Side { items, faults } = all("crates/lane_c/src", ".rt", read::rust);
    side.items.extend(items.into_iter().filter(|item| item.result.is_none()));
    side.faults.extend(faults);
    side
}

fn header() -> Side {
    all("include", ".h", read::c)
}

fn wrapper() -> Side {
    all("host/lane/src", ".rs", read::rust)
}

#[test]
fn the_header_and_the_wrapper_declare_what_is_exported() {
    let exported = exported();
    assert!(exported.items.iter().any(|item| item.name == "lane_call"), "nothing was read");
    let mut found = faults(&exported, &header(), "include/lane.h");
    found.extend(faults(&exported, &wrapper(), "host/lane"));
    assert!(found.is_empty(), "the C boundary:\n{}", found.join("\n"));
}

/// Any two parameters or fields exchanged, on any side, are a fault.
#[test]
fn nothing_can_be_exchanged() {
    let mut tried = 0;
    let mut refused = |exported: &Side, declared: &Side| {
        tried += 1;
        assert!(!faults(exported, declared, "the other").is_empty());
    };
    let exchanged = |side: &Side| {
        let mut out = Vec::new();
        for (n, item) in side.items.iter().enumerate() {
            for j in 0..item.parts.len() {
                for i in 0..j {
                    let mut side = side.clone();
                    side.items[n].parts.swap(i, j);
                    out.push(side);
                }
            }
        }
        out
    };
    let exported = exported();
    for declared in [header(), wrapper()] {
        exchanged(&exported).iter().for_each(|side| refused(side, &declared));
        exchanged(&declared).iter().for_each(|side| refused(&exported, side));
    }
    assert!(tried > 0, "nothing was read");
}

/// A small interface in the three texts, with every form that they may take.
const EXPORTED: &str = r#"
    // pub extern "C" fn lane_gone(a: u32) -> u32
    #[repr(C)]
    pub struct LaneServed {
        pub taken: u64,
        pub written: u64,
        pub why: u32,
    }
    struct Inner { one: u8, }
    #[repr(C)]
    pub struct LanePair { pub kind: u32, pub place: u32 }

    #[unsafe(no_mangle)]
    pub extern "C" fn lane_serve<'a>(words: &'a mut [u32], calls: &[u8], entries: &mut [u8], place: u32, key: u32) -> LaneServed
        requires { length words.old ≡ 50 }
        ensures { result ≡ served words.old }
    {
        inner(words)
    }
    fn inner(words: &mut [u32]) -> LaneServed { LaneServed { taken: 0, written: 0, why: 3 } }
    #[unsafe(no_mangle)]
    pub extern "C" fn lane_judge(pairs: &[LanePair]) -> u32 { 0 }
    #[unsafe(no_mangle)]
    pub extern "C" fn lane_level() -> u32 { 1 }
"#;

const HEADER: &str = r#"
#ifndef LANE_H
#define LANE_H "lane.h"
#ifdef __cplusplus
extern "C" {
#endif
enum { LANE_LEVEL = 1 };
enum lane_why { LANE_END = 0, /* uint32_t lane_gone(uint32_t a); */ LANE_ROOM = 2 };
struct lane_served {
    uint64_t taken, written; // bytes
    uint32_t why;
};
struct lane_pair { uint32_t kind; uint32_t place; };
static inline uint32_t lane_number(uint64_t answer) { if (answer) { return 1; } return (uint32_t)(answer >> 32); }
struct lane_served lane_serve(uint32_t *record, size_t record_words, const uint8_t *calls, size_t call_bytes,
                              uint8_t *entries, size_t entry_bytes, uint32_t place, uint32_t key);
uint32_t lane_judge(const struct lane_pair *pairs, size_t pair_count);
uint32_t lane_level(void);
#ifdef __cplusplus
}
#endif
#endif
"#;

const WRAPPER: &str = r#"
mod c {
    /// `struct lane_served` of "include/lane.h".
    #[repr(C)]
    #[derive(Clone)]
    pub struct LaneServed { pub taken: u64, pub written: u64, pub why: u32 }
    #[repr(C)]
    pub struct LanePair { pub kind: u32, pub place: u32 }
    extern "C" {
        pub fn lane_serve(record: *mut u32, record_words: usize, calls: *const u8, call_bytes: usize, entries: *mut u8,
            entry_bytes: usize, place: u32, key: u32) -> LaneServed;
        pub fn lane_judge(pairs: *const LanePair, pair_count: usize) -> u32;
        pub fn lane_level() -> u32;
    }
}
pub struct Served { written: usize, taken: usize }
fn quote() -> [char; 2] { ['"', '\''] }
"#;

/// The three texts, with one edit in one of them.
fn with_edit(text: usize, old: &str, new: &str) -> Vec<String> {
    let mut texts = [EXPORTED, HEADER, WRAPPER].map(String::from);
    assert_eq!(texts[text].matches(old).count(), 1, "must occur exactly once: {old}");
    texts[text] = texts[text].replace(old, new);
    let exported = read::rust("lib.rt", &texts[0]);
    let mut found = faults(&exported, &read::c("lane.h", &texts[1]), "lane.h");
    found.extend(faults(&exported, &read::rust("words.rs", &texts[2]), "words.rs"));
    found
}

/// Edits, each with the text that it is made in, and what must be said first.
const PLANTED: &[(usize, &str, &str, &str)] = &[
    (
        0,
        "place: u32, key: u32",
        "key: u32, place: u32",
        "lane.h:15: lane_serve: parameter 7 is `place: u32`, in lib.rt:14 `key: u32`",
    ),
    (
        1,
        "uint32_t place, uint32_t key",
        "uint32_t key, uint32_t place",
        "lane.h:15: lane_serve: parameter 7 is `key: u32`, in lib.rt:14 `place: u32`",
    ),
    (
        2,
        "place: u32, key: u32",
        "key: u32, place: u32",
        "words.rs:10: lane_serve: parameter 7 is `key: u32`, in lib.rt:14 `place: u32`",
    ),
    (
        0,
        "pub taken: u64,\n        pub written: u64,",
        "pub written: u64,\n        pub taken: u64,",
        "lane.h:9: lane_served: field 1 is `taken: u64`, in lib.rt:4 `written: u64`",
    ),
    (
        0,
        "pub taken: u64,\n        pub written: u64,\n        pub why: u32,",
        "pub why: u32, pub written: u64, pub taken: u64",
        "lane.h:9: lane_served: field 1 is `taken: u64`, in lib.rt:4 `why: u32`",
    ),
    (
        1,
        "uint64_t taken, written;",
        "uint64_t written, taken;",
        "lane.h:9: lane_served: field 1 is `written: u64`, in lib.rt:4 `taken: u64`",
    ),
    (
        2,
        "pub taken: u64, pub written: u64",
        "pub written: u64, pub taken: u64",
        "words.rs:6: lane_served: field 1 is `written: u64`, in lib.rt:4 `taken: u64`",
    ),
    (
        2,
        "pub kind: u32, pub place: u32",
        "pub place: u32, pub kind: u32",
        "words.rs:8: lane_pair: field 1 is `place: u32`, in lib.rt:11 `kind: u32`",
    ),
    // slices: exchanged, of another width, lent for writing, the lengths exchanged
    (
        0,
        "calls: &[u8], entries: &mut [u8]",
        "entries: &mut [u8], calls: &[u8]",
        "lane.h:15: lane_serve: parameter 3 is `calls: *const u8`, in lib.rt:14 `entries: *mut u8`",
    ),
    (
        0,
        "calls: &[u8]",
        "calls: &[u32]",
        "lane.h:15: lane_serve: parameter 3 is `calls: *const u8`, in lib.rt:14 `calls: *const u32`",
    ),
    (
        1,
        "const uint8_t *calls",
        "uint8_t *calls",
        "lane.h:15: lane_serve: parameter 3 is `calls: *mut u8`, in lib.rt:14 `calls: *const u8`",
    ),
    (
        1,
        "size_t call_bytes",
        "size_t entry_bytes_too",
        "lane.h:15: lane_serve: parameter 4 is `entry_bytes_too: usize`, in lib.rt:14 `call_bytes: usize`",
    ),
    (
        1,
        "const struct lane_pair *pairs",
        "const struct lane_served *pairs",
        "lane.h:17: lane_judge: parameter 1 is `pairs: *const lane_served`, in lib.rt:22 `pairs: *const lane_pair`",
    ),
    // widths, counts, results, what one side alone has
    (1, "uint32_t why", "uint64_t why", "lane.h:9: lane_served: field 3 is `why: u64`, in lib.rt:4 `why: u32`"),
    (1, ", uint32_t key)", ")", "lane.h:15: lane_serve has 7 parameters, in lib.rt:14 8"),
    (1, "lane_level(void)", "lane_level(uint32_t level)", "lane.h:18: lane_level has 1 parameters, in lib.rt:24 0"),
    (1, "uint32_t lane_level", "uint64_t lane_level", "lane.h:18: lane_level gives `u64`, in lib.rt:24 `u32`"),
    (1, "uint32_t lane_level(void);", "", "lane.h has no lane_level, which lib.rt:24 has"),
    (2, "pub fn lane_level() -> u32;", "", "words.rs has no lane_level, which lib.rt:24 has"),
    (0, "pub extern \"C\" fn lane_level() -> u32 { 1 }", "", "lane.h:18: lane_level is not exported"),
    // what C could not find, has no fixed layout, or is not understood
    (
        0,
        "#[unsafe(no_mangle)]\n    pub extern \"C\" fn lane_level",
        "pub extern \"C\" fn lane_level",
        "lib.rt:23: lane_level is not #[unsafe(no_mangle)]",
    ),
    (
        0,
        "#[repr(C)]\n    pub struct LanePair",
        "pub struct LanePair",
        "lib.rt:21: lane_judge: `*const lane_pair` is no number and no C struct",
    ),
    (
        1,
        "uint32_t lane_level(void)",
        "int lane_level(void)",
        "lane.h:18: lane_level: `int` is no number and no C struct",
    ),
    (
        1,
        "uint32_t lane_level(void);",
        "typedef uint32_t lane_word;",
        "lane.h:18: not understood: typedef uint32_t lane_word",
    ),
];

#[test]
fn what_was_planted_is_found() {
    assert_eq!(with_edit(0, "lane_gone", "lane_away"), Vec::<String>::new());
    for &(text, old, new, fault) in PLANTED {
        let found = with_edit(text, old, new);
        assert_eq!(found.first().map(String::as_str), Some(fault), "after `{old}` became `{new}`: {found:#?}");
    }
}
