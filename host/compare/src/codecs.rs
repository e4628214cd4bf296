//! Records in all damaged forms. Call records are read by `lane_serve`, whose answer records are read by the twin.

use crate::store::Served;
use crate::{fresh, shrink, Difference, Progress, Store};
use lane::layout::{self, CELL_WORDS, COMMITS, MAX_CELL_WORDS, RECORD_WORDS, STARTS};
use lane::{Place, State, ANSWER_BYTES, CALL_BYTES};
use twin::board::Call;
use twin::records::{call_record, read_answer};

/// Words, bytes of calls and so many bytes of room for answers.
#[derive(Clone, Debug, PartialEq, Eq)]
pub struct Case {
    pub record: Vec<u32>,
    pub cells: Vec<u32>,
    pub calls: Vec<u8>,
    pub room: usize,
}

/// What answers' bytes hold before, so that a byte written out of turn is seen.
const UNTOUCHED: u8 = 0xA5;

impl Case {
    /// Everything that serving leaves: what it gives back, answers, record, words.
    pub fn play(&self, store: &dyn Store) -> (Served, Vec<u8>, Vec<u32>, Vec<u32>) {
        let (mut record, mut cells) = (self.record.clone(), self.cells.clone());
        let mut answers = vec![UNTOUCHED; self.room];
        let served = store.serve(&mut record, &mut cells, &self.calls, &mut answers);
        (served, answers, record, cells)
    }

    /// Makes the case small, as long as the two stores still differ on it.
    fn shrink(mut self, a: &dyn Store, b: &dyn Store) -> Case {
        let differ = |case: &Case| case.play(a) != case.play(b);
        if !differ(&self) {
            return self;
        }
        let size = |case: &Case| (case.calls.len() + case.cells.len() + case.room) as u64;
        shrink::until_still(&mut self, size, |case| {
            for unit in [CALL_BYTES, 1] {
                let now = case.clone();
                shrink::drop_parts(&mut case.calls, unit, &mut |calls| {
                    differ(&Case { calls: calls.to_vec(), ..now.clone() })
                });
            }
            let now = case.clone();
            shrink::drop_parts(&mut case.cells, CELL_WORDS, &mut |cells| {
                differ(&Case { cells: cells.to_vec(), ..now.clone() })
            });
            if let Some(room) = (0..case.room).find(|&room| differ(&Case { room, ..case.clone() })) {
                case.room = room;
            }
        });
        let now = self.clone();
        shrink::lower_words(&mut self.cells, &mut |cells| differ(&Case { cells: cells.to_vec(), ..now.clone() }));
        let now = self.clone();
        shrink::lower_words(&mut self.record, &mut |record| differ(&Case { record: record.to_vec(), ..now.clone() }));
        self
    }

    fn difference(self, a: &dyn Store, b: &dyn Store) -> Difference {
        let small = self.shrink(a, b);
        let tell = |store: &dyn Store| {
            let (served, answers, record, cells) = small.play(store);
            let name = store.name();
            format!(
                "// {name}: taken, written, why {served:?}\n//   answers {answers:?}\n//   record {record:?}\n//   cells \
                 {cells:?}\n"
            )
        };
        Difference(format!(
            "{} and {} serve differently:\n{}{}#[test]\nfn found() {{\n    compare::same_serve(\n        &{:?},\n        \
             &{:?},\n        &{:?},\n        {},\n    );\n}}\n",
            a.name(),
            b.name(),
            tell(a),
            tell(b),
            small.record,
            small.cells,
            small.calls,
            small.room
        ))
    }

    /// Plays the case on both. Every whole answer written must be an answer record, and no other byte be touched.
    pub fn compare(&self, a: &dyn Store, b: &dyn Store) -> Result<(), Difference> {
        let left = self.play(a);
        let ((_, written, _), answers, ..) = &left;
        let written = *written as usize;
        let records = written <= self.room
            && written.is_multiple_of(ANSWER_BYTES)
            && (0..written).step_by(ANSWER_BYTES).all(|at| read_answer(answers, at).is_some())
            && answers[written..].iter().all(|&byte| byte == UNTOUCHED);
        if !records || left != self.play(b) {
            return Err(self.clone().difference(a, b));
        }
        Ok(())
    }
}

/// One call record.
pub type Bytes = [u8; CALL_BYTES];

/// Valid call records: every kind, with places, keys and values at their edges.
pub fn valid() -> Vec<Bytes> {
    let mut calls = Vec::new();
    for place in [0, 15, 16, 255] {
        calls.extend([
            Call::Start { place },
            Call::Read { place, key: 0 },
            Call::Read { place, key: 256 },
            Call::Read { place, key: 65_535 },
            Call::Update { place, key: 7, value: 0 },
            Call::Update { place, key: 255, value: 12 },
            Call::Update { place, key: 65_535, value: u32::MAX },
            Call::Prepare { place },
            Call::Commit { place },
            Call::Rollback { place },
        ]);
    }
    calls.into_iter().map(|call| call_record(call).expect("it fits")).collect()
}

/// A board on which place 0 is open with a write, and place 15 is open without.
fn board(cells: usize) -> (Vec<u32>, Vec<u32>) {
    let (mut record, mut words) = fresh(cells);
    let mut open = |place, number| {
        let open = Place { state: State::Open, number, view: 1 };
        record[layout::place(place)].copy_from_slice(&open.words());
    };
    open(0, 2);
    open(15, 3);
    record[STARTS] = 3;
    record[COMMITS] = 1;
    words[layout::cell(0)].copy_from_slice(&[8, 5, 1, 1]);
    words[layout::cell(1)].copy_from_slice(&[8, 6, 2, 0]);
    (record, words)
}

/// All damaged forms of the valid records: each byte by each other value, each pair of mark bytes, each kind with each
/// nonzero byte behind it, every length, every room, bytes in front. Gives how many cases they were.
pub fn compare(a: &dyn Store, b: &dyn Store) -> Result<u64, Difference> {
    let mut run = Run { a, b, board: board(3), cases: 0, progress: Progress::new("records", 0) };
    let valid = valid();
    let start = valid[0];
    for call in &valid {
        run.each_byte_by_every_value(start, *call)?;
        run.cut_with_every_room(start, *call)?;
        run.begun_at_every_wrong_offset(*call)?;
    }
    run.every_two_marks(start)?;
    run.every_kind_with_bytes_not_zero(start)?;
    run.no_records_and_boards_out_of_shape(start)?;
    run.progress.end(run.cases);
    Ok(run.cases)
}

/// A comparison under way.
struct Run<'a> {
    a: &'a dyn Store,
    b: &'a dyn Store,
    /// The record and the cells that calls are served on.
    board: (Vec<u32>, Vec<u32>),
    cases: u64,
    progress: Progress,
}

impl Run<'_> {
    fn one(&mut self, case: Case) -> Result<(), Difference> {
        self.cases += 1;
        self.progress.at(self.cases);
        case.compare(self.a, self.b)
    }

    /// These bytes on the board, with so many bytes of room.
    fn with(&mut self, calls: &[u8], room: usize) -> Result<(), Difference> {
        let (record, cells) = self.board.clone();
        self.one(Case { record, cells, calls: calls.to_vec(), room })
    }

    /// Each alone and between two good records.
    fn each_byte_by_every_value(&mut self, start: Bytes, call: Bytes) -> Result<(), Difference> {
        for at in 0..CALL_BYTES {
            for byte in 0..=255 {
                let mut bytes = call;
                bytes[at] = byte;
                self.with(&bytes, ANSWER_BYTES)?;
                self.with(&[start, bytes, start].concat(), 3 * ANSWER_BYTES)?;
            }
        }
        Ok(())
    }

    /// Cut after every byte, alone and behind a good record.
    fn cut_with_every_room(&mut self, start: Bytes, call: Bytes) -> Result<(), Difference> {
        for length in 0..=CALL_BYTES {
            for room in 0..=2 * ANSWER_BYTES + 1 {
                self.with(&call[..length], room)?;
                self.with(&[&start[..], &call[..length]].concat(), room)?;
            }
        }
        Ok(())
    }

    fn begun_at_every_wrong_offset(&mut self, call: Bytes) -> Result<(), Difference> {
        for at in 1..CALL_BYTES {
            self.with(&[&call[at..], &call].concat(), 4 * ANSWER_BYTES)?;
        }
        Ok(())
    }

    fn every_two_marks(&mut self, start: Bytes) -> Result<(), Difference> {
        for mark in 0..=u16::MAX {
            let mut bytes = start;
            bytes[..2].copy_from_slice(&mark.to_le_bytes());
            self.with(&bytes, ANSWER_BYTES)?;
        }
        Ok(())
    }

    /// Every kind with every one or two bytes behind it not zero.
    fn every_kind_with_bytes_not_zero(&mut self, start: Bytes) -> Result<(), Difference> {
        for kind in 0..=255 {
            for first in 4..CALL_BYTES {
                for second in first..CALL_BYTES {
                    for bit in 0..8 {
                        let mut bytes = start;
                        bytes[2] = kind;
                        bytes[first] |= 1 << bit;
                        bytes[second] |= 128 >> bit;
                        self.with(&bytes, ANSWER_BYTES)?;
                    }
                }
            }
        }
        Ok(())
    }

    /// Nothing done, or BOARD for each call.
    fn no_records_and_boards_out_of_shape(&mut self, start: Bytes) -> Result<(), Difference> {
        for words in [0, RECORD_WORDS - 1, RECORD_WORDS, RECORD_WORDS + 1] {
            for state in [0, 3, 4, u32::MAX] {
                for cell_words in [0, CELL_WORDS, CELL_WORDS + 2, MAX_CELL_WORDS + CELL_WORDS] {
                    let mut record = vec![0; words];
                    if let Some(word) = record.get_mut(layout::state(15)) {
                        *word = state;
                    }
                    for calls in [&start[..], &start[..9], &[0; CALL_BYTES], &[]] {
                        for room in [0, ANSWER_BYTES - 1, ANSWER_BYTES, 2 * ANSWER_BYTES] {
                            let (record, calls) = (record.clone(), calls.to_vec());
                            self.one(Case { record, cells: vec![0; cell_words], calls, room })?;
                        }
                    }
                }
            }
        }
        Ok(())
    }
}
