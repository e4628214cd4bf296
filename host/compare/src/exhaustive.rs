//! All sequences of calls up to a depth over two places and two keys, on fresh boards of 1 to 3 cells.
//!
//! A call that changes no word leaves a board on which every continuation is one of a shorter sequence, so only calls
//! that change something are gone on from: each sequence tried ends in any of the sixteen calls, and stands for all
//! those with calls in between that changed nothing. That such a call changed nothing is compared like all else.

use crate::boards::Left;
use crate::{fresh, shrink, Difference, Progress, Store};

/// The sixteen calls; an update's value is given by its turn, so that no two writes of a sequence are alike.
pub fn alphabet(turn: u32) -> Vec<[u32; 4]> {
    let mut calls = Vec::new();
    for place in 0..2 {
        calls.push([1, place, 0, 0]);
        for key in 0..2 {
            calls.push([2, place, key, 0]);
            calls.push([3, place, key, turn]);
        }
        calls.extend([[4, place, 0, 0], [5, place, 0, 0], [6, place, 0, 0]]);
    }
    calls
}

/// What the last of these calls on a fresh board leaves.
pub fn play(store: &dyn Store, cells: usize, calls: &[[u32; 4]]) -> Left {
    let (mut record, mut words) = fresh(cells);
    let mut answer = (0, 0);
    for &numbers in calls {
        answer = store.call(&mut record, &mut words, numbers);
    }
    (answer, record, words)
}

struct Walk<'a> {
    a: &'a dyn Store,
    b: &'a dyn Store,
    cells: usize,
    deepest: usize,
    sequences: u64,
    progress: Progress,
    path: Vec<[u32; 4]>,
}

impl Walk<'_> {
    /// Tries every call on this board and goes on from those that change it.
    fn walk(&mut self, record: &[u32], words: &[u32]) -> Result<(), Difference> {
        for numbers in alphabet(self.path.len() as u32 + 1) {
            let play = |store: &dyn Store| {
                let (mut record, mut words) = (record.to_vec(), words.to_vec());
                (store.call(&mut record, &mut words, numbers), record, words)
            };
            let left = play(self.a);
            self.path.push(numbers);
            self.sequences += 1;
            self.progress.at(self.sequences);
            if left != play(self.b) {
                return Err(self.difference());
            }
            if self.path.len() < self.deepest && (left.1 != record || left.2 != words) {
                self.walk(&left.1, &left.2)?;
            }
            self.path.pop();
        }
        Ok(())
    }

    fn difference(&self) -> Difference {
        let Walk { a, b, cells, .. } = *self;
        let mut calls = self.path.clone();
        let mut differ =
            |calls: &[[u32; 4]]| (1..=calls.len()).any(|n| play(a, cells, &calls[..n]) != play(b, cells, &calls[..n]));
        shrink::drop_parts(&mut calls, 1, &mut differ);
        let tell = |store: &dyn Store| {
            let ((number, value), record, words) = play(store, cells, &calls);
            let name = store.name();
            format!("// {name}: {} {value}\n//   record {record:?}\n//   cells {words:?}\n", twin::name(number))
        };
        Difference(format!(
            "{} and {} differ after a sequence of calls:\n{}{}#[test]\nfn found() {{\n    compare::same_calls({cells}, \
             &{calls:?});\n}}\n",
            a.name(),
            b.name(),
            tell(a),
            tell(b)
        ))
    }
}

/// All sequences up to this depth on a board of so many cells. Gives how many they were.
pub fn to_depth(a: &dyn Store, b: &dyn Store, cells: usize, deepest: usize) -> Result<u64, Difference> {
    let progress = Progress::new("sequences", 0);
    let mut walk = Walk { a, b, cells, deepest, sequences: 0, progress, path: Vec::new() };
    let (record, words) = fresh(cells);
    walk.walk(&record, &words)?;
    Ok(walk.sequences)
}

/// Goes one call deeper until so many sequences were tried at once. Gives the depth and how many they were.
pub fn compare(a: &dyn Store, b: &dyn Store, cells: usize, enough: u64) -> Result<(usize, u64), Difference> {
    let mut deepest = 1;
    loop {
        let sequences = to_depth(a, b, cells, deepest)?;
        if sequences >= enough {
            return Ok((deepest, sequences));
        }
        deepest += 1;
    }
}
