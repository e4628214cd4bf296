//! What the desk program writes for what it reads.

use super::board::{Answer, Board, CELLS, RECORD};
use super::records::{answer_record, read_call, Reply, ANSWER_BYTES, CALL_BYTES};

/// "The desk program starts a fresh board of 1,024 cells, reads call records from standard input to the end and
/// writes one answer each, with the call's place byte."
pub fn desk(input: &[u8]) -> Vec<u8> {
    let mut board = Board::fresh(CELLS);
    let mut output = Vec::with_capacity(input.len() / CALL_BYTES * ANSWER_BYTES + ANSWER_BYTES);
    let mut at = 0;
    // "Empty input writes nothing."
    while at < input.len() {
        let Some(call) = read_call(input, at) else {
            // "At bytes that are no call, or a cut record, it writes RECORD with place 0 and value 0, and stops."
            let record = Reply { place: 0, answer: Answer { number: RECORD, value: 0 } };
            output.extend(answer_record(record).expect("RECORD at place 0 has a record"));
            break;
        };
        let reply = Reply { place: call.place(), answer: board.call(call) };
        output.extend(answer_record(reply).expect("a place that came in a byte goes out in one"));
        at += CALL_BYTES;
    }
    output
}
