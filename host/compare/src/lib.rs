//! The proved board against the twin. Each comparison plays the same cases on two stores and gives counts of what it
//! saw, or the first case on which they differ, shrunk and printed as a test to paste.
//!
//! - [`boards`]: one call on arbitrary boards: any record words, any lengths, any cell words;
//! - [`streams`]: call records through the desk program, and through `lane_serve` in pieces;
//! - [`exhaustive`]: all sequences of calls up to a depth over two places and two keys;
//! - [`codecs`]: records in all damaged forms;
//! - [`situations`]: document 01's eleven situations.
//!
//! Numbers of cases are for one round; `LANE_ROUNDS=n` multiplies them.

use lane::layout::{CELL_WORDS, RECORD_WORDS};
use std::io::Write;
use std::time::{Duration, Instant};

pub mod boards;
pub mod codecs;
pub mod exhaustive;
pub mod loops;
pub mod program;
pub mod rng;
pub mod shrink;
pub mod situations;
pub mod store;
pub mod streams;

pub use store::{Proved, Store, Twin};

/// A case on which two stores differ, shrunk, as text with a test to paste.
pub struct Difference(pub String);

impl std::fmt::Debug for Difference {
    fn fmt(&self, f: &mut std::fmt::Formatter<'_>) -> std::fmt::Result {
        f.write_str(&self.0)
    }
}

/// The words of a fresh board of so many cells: its record's and its cells'.
pub fn fresh(cells: usize) -> (Vec<u32>, Vec<u32>) {
    (vec![0; RECORD_WORDS], vec![0; cells * CELL_WORDS])
}

/// How many times the gate's number of cases is asked for: LANE_ROUNDS, or 1.
pub fn rounds() -> u64 {
    match std::env::var("LANE_ROUNDS") {
        Ok(text) => text.trim().parse().ok().filter(|&n| n > 0).expect("LANE_ROUNDS is a number above 0"),
        Err(_) => 1,
    }
}

/// Writes a line to standard error, also from a test whose output is kept back.
pub fn say(line: &str) {
    // no progress is worth a failed test
    let _ = writeln!(std::io::stderr(), "{line}");
}

/// A line now and then on long work.
pub struct Progress {
    what: &'static str,
    total: u64,
    last: Instant,
    begun: Instant,
}

impl Progress {
    pub fn new(what: &'static str, total: u64) -> Progress {
        Progress { what, total, last: Instant::now(), begun: Instant::now() }
    }

    pub fn at(&mut self, done: u64) {
        if self.last.elapsed() > Duration::from_secs(10) {
            self.last = Instant::now();
            say(&format!("{}: {done} of {} after {} s", self.what, self.total, self.begun.elapsed().as_secs()));
        }
    }

    pub fn end(&self, done: u64) {
        say(&format!("{}: {done} in {:.1} s", self.what, self.begun.elapsed().as_secs_f64()));
    }
}

/// How often each branch was taken, by name.
#[derive(Clone, Default, Debug)]
pub struct Counts(pub std::collections::BTreeMap<&'static str, u64>);

impl Counts {
    pub fn add(&mut self, name: &'static str) {
        *self.0.entry(name).or_default() += 1;
    }

    pub fn of(&self, name: &str) -> u64 {
        self.0.get(name).copied().unwrap_or(0)
    }

    /// Prints the counts and demands that each of these names was met so often.
    pub fn met(&self, what: &str, names: &[&str], often: u64) {
        let line: Vec<String> = self.0.iter().map(|(name, count)| format!("{name} {count}")).collect();
        say(&format!("{what}: {}", line.join(", ")));
        for name in names {
            assert!(self.of(name) >= often, "{what}: {name} was met {} times only", self.of(name));
        }
    }
}

/// To paste: one call on these words gives the same answer, record and words from the proved board and the twin.
pub fn same_call(record: &[u32], cells: &[u32], numbers: [u32; 4]) {
    let case = boards::Case { record: record.to_vec(), cells: cells.to_vec(), numbers };
    assert_eq!(case.play(&Proved), case.play(&Twin), "(proved, twin)");
}

/// To paste: these calls on a fresh board of so many cells are answered alike, with the same board after each.
pub fn same_calls(cells: usize, calls: &[[u32; 4]]) {
    for n in 1..=calls.len() {
        assert_eq!(exhaustive::play(&Proved, cells, &calls[..n]), exhaustive::play(&Twin, cells, &calls[..n]));
    }
}

/// To paste: the desk program and the twin write the same bytes for this input.
pub fn same_desk(input: &[u8]) {
    assert_eq!(Proved.desk(input), Twin.desk(input), "(proved, twin)");
}

/// To paste: `lane_serve` and the twin serve these calls alike on these words, with room for so many bytes of answers.
pub fn same_serve(record: &[u32], cells: &[u32], calls: &[u8], room: usize) {
    let case = codecs::Case { record: record.to_vec(), cells: cells.to_vec(), calls: calls.to_vec(), room };
    assert_eq!(case.play(&Proved), case.play(&Twin), "(proved, twin)");
}
