//! Desks that are wrong in their own loop, around a `serve` that is right. A proof of the library does not rule them out, so
//! the comparisons through the desk program have to.

use crate::store::Served;
use crate::streams::{READ, RECORD};
use crate::{fresh, Proved, Store};
use lane::{ANSWER_BYTES, CALL_BYTES, MAX_CELLS};

/// What is wrong with a loop.
#[derive(Clone, Copy, Debug, PartialEq, Eq)]
pub enum Fault {
    Nothing,
    /// Writes nothing for a cut record at the end.
    CutUnanswered,
    /// Answers bytes that are no call, and goes on behind them.
    GoesOn,
    /// Stops at bytes that are no call without a word.
    StopsInSilence,
    /// Begins a fresh record with each read.
    FreshRecord,
    /// Begins fresh cells with each read.
    FreshCells,
    /// Loses what is left of a read that ends within a record.
    LosesLeft,
    /// Takes a read that ends within a record for the end.
    CutAtRead,
    /// Has a board of one cell.
    OneCell,
    /// Stops after two reads.
    TwoReads,
    /// Keeps no more than 4,096 bytes of answers of one read.
    ShortAnswers,
}

pub const FAULTS: [Fault; 10] = [
    Fault::CutUnanswered,
    Fault::GoesOn,
    Fault::StopsInSilence,
    Fault::FreshRecord,
    Fault::FreshCells,
    Fault::LosesLeft,
    Fault::CutAtRead,
    Fault::OneCell,
    Fault::TwoReads,
    Fault::ShortAnswers,
];

/// A desk with this fault over the proved `serve`.
pub struct Loop(pub Fault);

impl Store for Loop {
    fn name(&self) -> &'static str {
        "a loop"
    }

    fn call(&self, record: &mut [u32], cells: &mut [u32], numbers: [u32; 4]) -> (u32, u32) {
        Proved.call(record, cells, numbers)
    }

    fn serve(&self, record: &mut [u32], cells: &mut [u32], calls: &[u8], answers: &mut [u8]) -> Served {
        Proved.serve(record, cells, calls, answers)
    }

    fn desk(&self, input: &[u8]) -> Vec<u8> {
        let has = |fault| self.0 == fault;
        let begin = || fresh(if has(Fault::OneCell) { 1 } else { MAX_CELLS });
        let (mut record, mut cells) = begin();
        let (mut bytes, mut rest, mut output) = (Vec::new(), input, Vec::new());
        let mut reads = 0;
        while !rest.is_empty() {
            let (read, behind) = rest.split_at(rest.len().min(READ - bytes.len()));
            bytes.extend(read);
            rest = behind;
            reads += 1;
            if has(Fault::FreshRecord) {
                record = begin().0;
            }
            if has(Fault::FreshCells) {
                cells = begin().1;
            }
            let mut answers = vec![0; READ];
            let (taken, written, why) = self.serve(&mut record, &mut cells, &bytes, &mut answers);
            let (taken, written) = (taken as usize, written as usize);
            let no_call = why == twin::words::NO_CALL;
            let kept = match self.0 {
                Fault::ShortAnswers => written.min(4_096),
                Fault::StopsInSilence if no_call => written - ANSWER_BYTES,
                _ => written,
            };
            output.extend(&answers[..kept]);
            bytes.drain(..taken);
            if no_call && has(Fault::GoesOn) {
                bytes.drain(..CALL_BYTES);
            } else if no_call || has(Fault::TwoReads) && reads == 2 {
                return output;
            }
            if has(Fault::LosesLeft) {
                bytes.clear();
            }
            if has(Fault::CutAtRead) && !bytes.is_empty() {
                break;
            }
        }
        if !bytes.is_empty() && !has(Fault::CutUnanswered) {
            output.extend(RECORD);
        }
        output
    }
}
