//! The board behind the numbers of the C interface: "for place i, words 3i (state: 0 idle, 1 open, 2 spoiled, 3
//! prepared), 3i + 1 (number), 3i + 2 (view); word 48 the start count, word 49 the commit count".

use super::board::{Answer, Board, Call, Place, Record, State, BOARD, PLACES, RECORD};
use super::records::{read_call, write_answer, Reply, ANSWER_BYTES, CALL_BYTES};

/// "for place i, words 3i .., 3i + 1 .., 3i + 2"
const PLACE_WORDS: usize = 3;
/// "word 48 the start count"
const START_COUNT: usize = PLACES * PLACE_WORDS;
/// "word 49 the commit count"
const COMMIT_COUNT: usize = START_COUNT + 1;
/// The words of a record.
pub const RECORD_WORDS: usize = COMMIT_COUNT + 1;

/// The place in these words, unless the state word is above 3.
fn place_of([state, number, view]: [u32; PLACE_WORDS]) -> Option<Place> {
    let state = match state {
        0 => State::Idle,
        1 => State::Open,
        2 => State::Spoiled,
        3 => State::Prepared,
        _ => return None,
    };
    Some(Place { state, number, view })
}

/// The words of this place.
fn words_of_place(Place { state, number, view }: Place) -> [u32; PLACE_WORDS] {
    [state as u32, number, view]
}

/// The record in these words; None if their count is another or a state word is above 3.
pub fn record_of(words: &[u32]) -> Option<Record> {
    if words.len() != RECORD_WORDS {
        return None;
    }
    let mut record = Board::fresh(0).record;
    for (place, words) in record.places.iter_mut().zip(words.as_chunks().0) {
        *place = place_of(*words)?;
    }
    record.starts = words[START_COUNT];
    record.commits = words[COMMIT_COUNT];
    Some(record)
}

/// The words of this record.
pub fn words_of(record: &Record) -> [u32; RECORD_WORDS] {
    let mut words = [0; RECORD_WORDS];
    for (place, words) in record.places.iter().zip(words.as_chunks_mut().0) {
        *words = words_of_place(*place);
    }
    words[START_COUNT] = record.starts;
    words[COMMIT_COUNT] = record.commits;
    words
}

/// The call that these four numbers name, if the kind is one. Key and value are passed over where the kind has none.
pub fn call_of(kind: u32, place: u32, key: u32, value: u32) -> Option<Call> {
    match kind {
        1 => Some(Call::Start { place }),
        2 => Some(Call::Read { place, key }),
        3 => Some(Call::Update { place, key, value }),
        4 => Some(Call::Prepare { place }),
        5 => Some(Call::Commit { place }),
        6 => Some(Call::Rollback { place }),
        _ => None,
    }
}

/// What `lane_call` is to give and to leave. A kind other than 1 to 6 is RECORD before anything else; words that are
/// no record are BOARD; on both nothing changes.
pub fn call(record: &mut [u32], cells: &mut [u32], kind: u32, place: u32, key: u32, value: u32) -> Answer {
    let Some(call) = call_of(kind, place, key, value) else { return Answer { number: RECORD, value: 0 } };
    let Some(read) = record_of(record) else { return Answer { number: BOARD, value: 0 } };
    let mut board = Board { record: read, cells: cells.to_vec() };
    let answer = board.call(call);
    record.copy_from_slice(&words_of(&board.record));
    cells.copy_from_slice(&board.cells);
    answer
}

/// What `lane_serve` gives back: bytes taken, bytes written, and why it stopped.
#[derive(Clone, Copy, Debug, PartialEq, Eq)]
pub struct Served {
    pub taken: u64,
    pub written: u64,
    pub why: u32,
}

/// Fewer than ten bytes are left.
pub const END: u32 = 0;
/// The bytes are no call; RECORD with place 0 and value 0 was written.
pub const NO_CALL: u32 = 1;
/// No room for one more answer.
pub const NO_ROOM: u32 = 2;
/// The words are no record; nothing was done.
pub const NO_RECORD: u32 = 3;

/// What `lane_serve` is to give and to leave: the calls in order, one answer each, with the call's place byte.
pub fn serve(record: &mut [u32], cells: &mut [u32], calls: &[u8], answers: &mut [u8]) -> Served {
    let Some(read) = record_of(record) else { return Served { taken: 0, written: 0, why: NO_RECORD } };
    let mut board = Board { record: read, cells: cells.to_vec() };
    let (mut taken, mut written) = (0, 0);
    let why = loop {
        if calls.len() - taken < CALL_BYTES {
            break END;
        }
        if answers.len() - written < ANSWER_BYTES {
            break NO_ROOM;
        }
        let Some(call) = read_call(calls, taken) else {
            write_answer(answers, written, Reply { place: 0, answer: Answer { number: RECORD, value: 0 } });
            written += ANSWER_BYTES;
            break NO_CALL;
        };
        let reply = Reply { place: call.place(), answer: board.call(call) };
        write_answer(answers, written, reply);
        taken += CALL_BYTES;
        written += ANSWER_BYTES;
    };
    record.copy_from_slice(&words_of(&board.record));
    cells.copy_from_slice(&board.cells);
    Served { taken: taken as u64, written: written as u64, why }
}
