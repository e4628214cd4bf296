//! One call on arbitrary boards: any record words, any lengths, any cell words.
//!
//! Most boards are made to be in shape or to miss it by one condition, with few keys and small numbers, so that every
//! refusal and every branch of the steps is met often; the rest are random words.

use crate::rng::Rng;
use crate::{shrink, Counts, Difference, Progress, Store};
use lane::layout::{self, number, state, view, CELL_WORDS, COMMITS, MAX_CELL_WORDS, PLACE_WORDS, RECORD_WORDS, STARTS};
use lane::{MAX_STARTS, PLACES};
use twin::board::{Board, Call, Cell, Place, State, BOARD, CONFLICT, OK};
use twin::words::{call_of, record_of};

/// Calls that are tried on each board, each on a copy of its own.
pub const CALLS_PER_BOARD: u64 = 4;

/// Words and a call on them.
#[derive(Clone, Debug, PartialEq, Eq)]
pub struct Case {
    pub record: Vec<u32>,
    pub cells: Vec<u32>,
    /// Kind, place, key, value.
    pub numbers: [u32; 4],
}

/// Everything that a call leaves: answer, record, words.
pub type Left = ((u32, u32), Vec<u32>, Vec<u32>);

impl Case {
    pub fn play(&self, store: &dyn Store) -> Left {
        let (mut record, mut cells) = (self.record.clone(), self.cells.clone());
        let answer = store.call(&mut record, &mut cells, self.numbers);
        (answer, record, cells)
    }

    fn size(&self) -> u64 {
        let words = self.record.iter().chain(&self.cells).chain(&self.numbers);
        (self.record.len() + self.cells.len()) as u64 * (1 << 33) + words.map(|&w| u64::from(w)).sum::<u64>()
    }

    /// Makes the case small, as long as the two stores still differ on it.
    fn shrink(mut self, a: &dyn Store, b: &dyn Store) -> Case {
        let differ = |case: &Case| case.play(a) != case.play(b);
        shrink::until_still(&mut self, Case::size, |case| {
            let now = case.clone();
            shrink::drop_parts(&mut case.cells, CELL_WORDS, &mut |cells| {
                differ(&Case { cells: cells.to_vec(), ..now.clone() })
            });
            let now = case.clone();
            shrink::drop_parts(&mut case.cells, 1, &mut |cells| differ(&Case { cells: cells.to_vec(), ..now.clone() }));
            for place in places() {
                let mut idle = case.clone();
                if let Some(words) = idle.record.get_mut(layout::place(place)) {
                    words.fill(0);
                    if differ(&idle) {
                        *case = idle;
                    }
                }
            }
            let now = case.clone();
            let with = |numbers: &[u32]| Case { numbers: numbers.try_into().expect("four"), ..now.clone() };
            shrink::lower_words(&mut case.numbers, &mut |numbers| differ(&with(numbers)));
            let now = case.clone();
            shrink::lower_words(&mut case.cells, &mut |cells| differ(&Case { cells: cells.to_vec(), ..now.clone() }));
            let now = case.clone();
            shrink::lower_words(&mut case.record, &mut |record| {
                differ(&Case { record: record.to_vec(), ..now.clone() })
            });
        });
        self
    }

    fn difference(self, a: &dyn Store, b: &dyn Store, seed: u64) -> Difference {
        let small = self.shrink(a, b);
        let tell = |store: &dyn Store| {
            let ((number, value), record, cells) = small.play(store);
            let name = store.name();
            format!("// {name}: {} {value}\n//   record {record:?}\n//   cells {cells:?}\n", twin::name(number))
        };
        Difference(format!(
            "{} and {} differ on a board (seed {seed:#x}):\n{}{}#[test]\nfn found() {{\n    compare::same_call(\n        \
             &{:?},\n        &{:?},\n        {:?},\n    );\n}}\n",
            a.name(),
            b.name(),
            tell(a),
            tell(b),
            small.record,
            small.cells,
            small.numbers
        ))
    }
}

/// Words near the edges of 32 bits and of the paper's limits.
const EDGES: [u32; 12] = [0, 1, 2, 255, 256, 257, 65_535, 65_536, MAX_STARTS - 1, MAX_STARTS, MAX_STARTS + 1, u32::MAX];

// The state words.
const IDLE: u32 = lane::State::Idle.word();
const OPEN: u32 = lane::State::Open.word();
const SPOILED: u32 = lane::State::Spoiled.word();
const PREPARED: u32 = lane::State::Prepared.word();

/// The places of a record.
fn places() -> std::ops::Range<usize> {
    0..PLACES as usize
}

/// A record in shape, with these counts near.
fn in_shape(rng: &mut Rng, starts: u32) -> Vec<u32> {
    let mut record = vec![0; RECORD_WORDS];
    let most = starts.min(rng.pick(&[1, 2, 3, 4, 6, PLACES]));
    let least = u32::from(rng.percent(90)).min(most);
    let busy = rng.from_to(least, most);
    let commits = match rng.below(4) {
        0 | 1 => starts - busy,
        2 => rng.from_to(0, starts - busy),
        _ => rng.from_to(0, 4).min(starts - busy),
    };
    record[STARTS] = starts;
    record[COMMITS] = commits;
    let mut taken: Vec<usize> = Vec::new();
    while (taken.len() as u32) < busy {
        let place = rng.below(PLACES) as usize;
        let given = match rng.below(4) {
            0 => starts - rng.from_to(0, 16).min(starts - 1),
            _ => rng.from_to(1, starts),
        };
        if taken.iter().any(|&other| other == place || record[number(other)] == given) {
            continue;
        }
        taken.push(place);
        record[number(place)] = given;
        record[view(place)] = match rng.below(3) {
            0 => commits,
            1 => rng.from_to(0, commits),
            _ => commits - rng.from_to(0, 2).min(commits),
        };
        record[state(place)] = [OPEN, SPOILED, PREPARED][rng.weighted(&[7, 1, 2])];
    }
    // An idle place may hold any number and view.
    if rng.percent(20) {
        for place in places().filter(|p| !taken.contains(p)) {
            record[number(place)] = if rng.percent(50) { rng.from_to(0, starts) } else { rng.word() };
            record[view(place)] = if rng.percent(50) { rng.from_to(0, commits) } else { rng.word() };
        }
    }
    record
}

/// Breaks one condition of a record in shape, or none where it has nothing to break.
fn miss_by_one(rng: &mut Rng, record: &mut Vec<u32>) {
    let busy: Vec<usize> = places().filter(|&p| record[state(p)] != IDLE).collect();
    let one = if busy.is_empty() { 0 } else { busy[rng.below(busy.len() as u32) as usize] };
    match rng.below(11) {
        0 => record[STARTS] = rng.pick(&[MAX_STARTS + 1, MAX_STARTS + 2, u32::MAX]),
        1 => record[COMMITS] = record[STARTS] - busy.len() as u32 + 1,
        // a sum that would wrap at 32 bits
        2 => record[COMMITS] = u32::MAX - rng.below(busy.len() as u32 + 1),
        3 if !busy.is_empty() => record[number(one)] = 0,
        4 if !busy.is_empty() => record[number(one)] = record[STARTS] + 1,
        5 if !busy.is_empty() => record[view(one)] = record[COMMITS] + 1,
        6 if busy.len() > 1 => {
            let other = *busy.iter().find(|&&p| p != one).expect("two places are busy");
            record[number(one)] = record[number(other)];
        }
        7 => record[state(rng.below(PLACES) as usize)] = rng.pick(&[PREPARED + 1, PREPARED + 2, 256, u32::MAX]),
        8 => record.truncate(rng.pick(&[0, 1, STARTS, COMMITS])),
        9 => record.extend(vec![0; rng.pick(&[1, 2, RECORD_WORDS])]),
        // one place more than the counts allow
        10 => {
            if let Some(idle) = places().find(|&p| record[state(p)] == IDLE) {
                record[COMMITS] = record[STARTS] - busy.len() as u32;
                let free = (1..=record[STARTS]).find(|n| !busy.iter().any(|&p| record[number(p)] == *n));
                record[layout::place(idle)].fill(0);
                record[state(idle)] = OPEN;
                record[number(idle)] = free.unwrap_or(0);
            }
        }
        _ => (),
    }
}

fn record(rng: &mut Rng) -> Vec<u32> {
    match rng.weighted(&[66, 12, 14, 3, 3, 2]) {
        0 => {
            let starts = rng.pick(&[1, 2, 3, 4, 5, 6, 8, 12, 20, 100]);
            in_shape(rng, starts)
        }
        1 => {
            let starts = match rng.below(3) {
                0 => rng.pick(&[MAX_STARTS, MAX_STARTS - 1]),
                1 => rng.from_to(1, MAX_STARTS),
                _ => MAX_STARTS,
            };
            in_shape(rng, starts)
        }
        2 => {
            let starts = rng.pick(&[1, 2, 3, 6, 20, MAX_STARTS]);
            let mut record = in_shape(rng, starts);
            miss_by_one(rng, &mut record);
            record
        }
        3 => (0..RECORD_WORDS).map(|_| rng.below(4)).collect(),
        4 => {
            let is_state = |i: usize| i < STARTS && i.is_multiple_of(PLACE_WORDS);
            (0..RECORD_WORDS).map(|i| if is_state(i) { rng.below(4) } else { rng.pick(&EDGES) }).collect()
        }
        _ => {
            let near = RECORD_WORDS as u32;
            (0..rng.from_to(near - 10, near + 10)).map(|_| rng.word()).collect()
        }
    }
}

/// How many words the cells are.
fn length(rng: &mut Rng) -> usize {
    let (most, cell) = (MAX_CELL_WORDS, CELL_WORDS);
    match rng.weighted(&[500, 300, 150, 10, 30, 4, 3]) {
        0 => cell * rng.from_to(1, 3) as usize,
        1 => cell * rng.from_to(4, 8) as usize,
        2 => cell * rng.from_to(9, 24) as usize,
        3 => 0,
        4 => rng.from_to(1, 40) as usize,
        5 => most,
        _ => rng.pick(&[most - cell, most - 1, most + 1, most + cell]),
    }
}

/// Cells that have to do with the record's numbers, views and commit count.
fn cells(rng: &mut Rng, record: &[u32]) -> Vec<u32> {
    let words = length(rng);
    let at = |i: usize| record.get(i).copied().unwrap_or(0);
    let mut busy: Vec<usize> = places().filter(|&p| at(state(p)) != IDLE).collect();
    if busy.is_empty() {
        busy.push(rng.below(PLACES) as usize);
    }
    let prepared: Vec<usize> = busy.iter().copied().filter(|&p| at(state(p)) == PREPARED).collect();
    let empty = rng.pick(&[0, 0, 10, 50]);
    let uncommitted = rng.pick(&[10, 35, 70]);
    let strange = rng.pick(&[0, 0, 0, 10, 100]);
    let keys = rng.pick(&[1, 2, 4]);
    let mut cells = Vec::with_capacity(words + CELL_WORDS);
    while cells.len() < words {
        let word = match rng.below(100) {
            n if n < empty => 0,
            _ if rng.percent(strange) => rng.pick(&[255, 256, 257, 258, u32::MAX]),
            _ => 1 + rng.below(keys),
        };
        let value = if rng.percent(70) { rng.below(10) } else { rng.word() };
        let writer = match rng.below(10) {
            0..=2 if !prepared.is_empty() => at(number(rng.pick(&prepared))),
            0..=6 => at(number(rng.pick(&busy))),
            7 => rng.from_to(1, at(STARTS).min(8)),
            8 => at(STARTS).wrapping_add(1),
            _ => rng.pick(&EDGES),
        };
        let commit = match rng.below(20) {
            n if n < uncommitted / 5 => 0,
            n if n < 10 => rng.from_to(1, at(COMMITS).min(6)),
            n if n < 14 => at(COMMITS).saturating_sub(rng.below(4)),
            n if n < 16 => at(COMMITS).wrapping_add(rng.below(3)),
            n if n < 18 => at(view(rng.pick(&busy))).wrapping_add(rng.below(2)),
            _ => rng.pick(&EDGES),
        };
        cells.extend([word, value, writer, commit]);
    }
    cells.truncate(words);
    cells
}

fn numbers(rng: &mut Rng, record: &[u32], cells: &[u32]) -> [u32; 4] {
    let kind = match rng.weighted(&[10, 24, 36, 6, 10, 10, 4]) {
        6 => rng.pick(&[0, 7, 8, 255, 256, u32::MAX]),
        n => n as u32 + 1,
    };
    let state = |p: u32| record.get(state(p as usize)).copied().unwrap_or(IDLE);
    let busy: Vec<u32> = (0..PLACES).filter(|&p| state(p) != IDLE).collect();
    let open: Vec<u32> = busy.iter().copied().filter(|&p| state(p) == OPEN).collect();
    let place = match rng.weighted(&[if kind == 1 { 20 } else { 80 }, 80, 14, 4]) {
        0 if !busy.is_empty() => rng.pick(&busy),
        1 if kind != 1 && !open.is_empty() => rng.pick(&open),
        3 => rng.pick(&[PLACES, PLACES + 1, 255, 256, 65_536, u32::MAX]),
        _ => rng.below(PLACES),
    };
    let key = match rng.below(20) {
        0 => rng.pick(&EDGES),
        1 => rng.pick(&[254, 255, 256, u32::MAX - 1]),
        // mostly the key of some cell
        2..=15 if cells.len() >= CELL_WORDS => {
            let i = rng.below((cells.len() / CELL_WORDS) as u32) as usize;
            cells[layout::cell(i).start].wrapping_sub(1)
        }
        _ => rng.below(4),
    };
    let value = if rng.percent(80) { rng.below(10) } else { rng.word() };
    [kind, place, key, value]
}

/// The conditions of shape that a board misses.
fn missed(board: &Board) -> Vec<&'static str> {
    let record = &board.record;
    let busy: Vec<_> = record.places.iter().filter(|p| p.state != State::Idle).collect();
    let mut missed = Vec::new();
    let mut say = |holds: bool, name| {
        if !holds {
            missed.push(name)
        }
    };
    let words = board.cells.len();
    say(words.is_multiple_of(CELL_WORDS), "BOARD: length no multiple of 4");
    say(words != 0, "BOARD: length 0");
    say(words <= MAX_CELL_WORDS, "BOARD: length above 4,096");
    say(record.starts <= MAX_STARTS, "BOARD: start count above 4,000,000,000");
    say(u64::from(record.commits) + busy.len() as u64 <= u64::from(record.starts), "BOARD: counts");
    say(busy.iter().all(|p| p.number != 0), "BOARD: number 0");
    say(busy.iter().all(|p| p.number <= record.starts), "BOARD: number above the start count");
    say(busy.iter().all(|p| p.view <= record.commits), "BOARD: view above the commit count");
    let mut numbers: Vec<u32> = busy.iter().map(|p| p.number).collect();
    numbers.sort();
    say(numbers.windows(2).all(|w| w[0] != w[1]), "BOARD: two places with one number");
    missed
}

/// The branch that a case took, by the twin's reading.
fn branch(case: &Case, left: &Left) -> &'static str {
    let (number, _) = left.0;
    let [kind, place, key, value] = case.numbers;
    let Some(call) = call_of(kind, place, key, value) else { return "RECORD: no kind" };
    let Some(record) = record_of(&case.record) else {
        let whole = case.record.len() == RECORD_WORDS;
        return if whole { "BOARD: state word above 3" } else { "BOARD: another count of words" };
    };
    let board = Board { record, cells: case.cells.clone() };
    if number == BOARD {
        let missed = missed(&board);
        return if missed.len() == 1 { missed[0] } else { "BOARD: more than one condition" };
    }
    let Some(at) = record.places.get(place as usize).copied() else { return "PLACE" };
    let cells: Vec<Cell> = board.all().collect();
    let owns = cells.iter().filter(|c| c.own(at.number)).count();
    match (number, call) {
        (OK, Call::Start { .. }) => "start",
        (OK, Call::Read { key, .. }) => read_branch(&cells, at, key),
        (OK, Call::Update { .. }) => update_branch(&cells, at, changed(&case.cells, &left.2)),
        (CONFLICT, Call::Update { key, .. }) => conflict_branch(&cells, at, key),
        (OK, Call::Prepare { .. }) => "prepare",
        (OK, Call::Commit { .. }) => commit_branch(at.state, owns),
        (OK, Call::Rollback { .. }) => rollback_branch(at.state, owns),
        _ => twin::name(number),
    }
}

/// What a read found.
fn read_branch(cells: &[Cell], at: Place, key: u32) -> &'static str {
    let own = cells.iter().filter(|c| c.of_key(key) && c.own(at.number)).count();
    let in_view = cells.iter().filter(|c| c.of_key(key) && c.committed() && c.commit <= at.view);
    let mut seen: Vec<u32> = in_view.map(|c| c.commit).collect();
    seen.sort();
    match (own, seen.as_slice()) {
        (1, _) => "read: own",
        (2.., _) => "read: several own",
        (_, []) => "read: none",
        (_, [.., a, b]) if a == b => "read: a tie",
        (_, [_]) => "read: the one committed",
        _ => "read: the newest of several",
    }
}

/// The first cell whose words are others.
fn changed(before: &[u32], after: &[u32]) -> Option<usize> {
    let (before, after) = (before.chunks(CELL_WORDS), after.chunks(CELL_WORDS));
    before.zip(after).position(|(a, b)| a != b)
}

/// Which cell an update took.
fn update_branch(cells: &[Cell], at: Place, taken: Option<usize>) -> &'static str {
    match taken.map(|i| (i, cells[i])) {
        None => "update: the same value again",
        Some((_, c)) if c.own(at.number) => "update: own",
        Some((_, c)) if c.empty() => "update: empty",
        Some((i, _)) if cells[i..].iter().any(|c| c.empty()) => "update: spent below an empty one",
        Some(_) => "update: spent",
    }
}

/// What an update met.
fn conflict_branch(cells: &[Cell], at: Place, key: u32) -> &'static str {
    let foreign = cells.iter().any(|c| c.of_key(key) && c.foreign(at.number));
    let newer = cells.iter().any(|c| c.of_key(key) && c.committed() && c.commit > at.view);
    match (foreign, newer) {
        (true, true) => "CONFLICT: both",
        (true, false) => "CONFLICT: a foreign cell",
        _ => "CONFLICT: a newer commit",
    }
}

fn commit_branch(state: State, owns: usize) -> &'static str {
    match (state, owns) {
        (State::Prepared, 0) => "commit: prepared, no writes",
        (State::Prepared, _) => "commit: prepared",
        (_, 0) => "commit: no writes",
        (_, 1) => "commit: one cell",
        _ => "commit: several cells",
    }
}

fn rollback_branch(state: State, owns: usize) -> &'static str {
    match (state, owns) {
        (State::Spoiled, 0) => "rollback: spoiled, no writes",
        (State::Spoiled, _) => "rollback: spoiled",
        (State::Prepared, _) => "rollback: prepared",
        (_, 0) => "rollback: no writes",
        (_, 1) => "rollback: one cell",
        _ => "rollback: several cells",
    }
}

/// Every name that [`branch`] gives in a comparison of some size.
pub const BRANCHES: [&str; 49] = [
    "RECORD: no kind",
    "BOARD: another count of words",
    "BOARD: state word above 3",
    "BOARD: length no multiple of 4",
    "BOARD: length 0",
    "BOARD: length above 4,096",
    "BOARD: start count above 4,000,000,000",
    "BOARD: counts",
    "BOARD: number 0",
    "BOARD: number above the start count",
    "BOARD: view above the commit count",
    "BOARD: two places with one number",
    "BOARD: more than one condition",
    "PLACE",
    "BUSY",
    "IDLE",
    "WORN",
    "SPOILED",
    "HELD",
    "KEY",
    "CONFLICT: a foreign cell",
    "CONFLICT: a newer commit",
    "CONFLICT: both",
    "PREPARED",
    "FULL",
    "start",
    "read: own",
    "read: several own",
    "read: none",
    "read: the one committed",
    "read: the newest of several",
    "read: a tie",
    "update: own",
    "update: the same value again",
    "update: empty",
    "update: spent",
    "update: spent below an empty one",
    "prepare",
    "commit: no writes",
    "commit: one cell",
    "commit: several cells",
    "commit: prepared, no writes",
    "commit: prepared",
    "rollback: no writes",
    "rollback: one cell",
    "rollback: several cells",
    "rollback: spoiled, no writes",
    "rollback: spoiled",
    "rollback: prepared",
];

/// Plays so many boards on both stores. Gives how often each branch and each refusal (by its name alone) was met.
pub fn compare(a: &dyn Store, b: &dyn Store, seed: u64, boards: u64) -> Result<(Counts, Counts), Difference> {
    let mut rng = Rng::new(seed);
    let (mut branches, mut numbers_met) = (Counts::default(), Counts::default());
    let mut progress = Progress::new("boards", boards);
    for done in 0..boards {
        progress.at(done);
        let record = record(&mut rng);
        let cells = cells(&mut rng, &record);
        for _ in 0..CALLS_PER_BOARD {
            let numbers = numbers(&mut rng, &record, &cells);
            let case = Case { record: record.clone(), cells: cells.clone(), numbers };
            let left = case.play(a);
            if left != case.play(b) {
                return Err(case.difference(a, b, seed));
            }
            branches.add(branch(&case, &left));
            numbers_met.add(twin::name(left.0 .0));
        }
    }
    progress.end(boards);
    Ok((branches, numbers_met))
}
