//! The C interface as Rust slices, for words that may hold anything: boards that were stored, sent, or damaged.
//!
//! `&mut` slices are valid, aligned, as long as they say and apart from each other, so nothing that `include/lane.h`
//! asks of a caller can be broken here. This module holds all of the crate's unsafe code.

use crate::{Answer, Refusal};

pub use crate::layout::RECORD_WORDS;

/// What [`serve`] did.
#[derive(Clone, Copy, Debug, PartialEq, Eq, Hash)]
pub struct Served {
    /// Bytes of the calls that were answered.
    pub taken: usize,
    /// Bytes of answers written.
    pub written: usize,
    pub why: Why,
}

/// Why [`serve`] stopped.
#[derive(Clone, Copy, Debug, PartialEq, Eq, Hash)]
pub enum Why {
    /// Fewer than ten bytes are left to take.
    End,
    /// The next ten bytes are no call. RECORD with place 0 and value 0 was written for them; they are not taken.
    NoCall,
    /// Fewer than eight bytes are left to write the next answer in.
    NoRoom,
    /// The record is not of [`RECORD_WORDS`] words, or has a state word above 3. Nothing was done.
    NoBoard,
}

mod c {
    /// `struct lane_served` of include/lane.h.
    #[repr(C)]
    pub struct LaneServed {
        pub taken: u64,
        pub written: u64,
        pub why: u32,
    }

    extern "C" {
        pub fn lane_call(
            record: *mut u32,
            record_words: usize,
            cells: *mut u32,
            cell_words: usize,
            kind: u32,
            place: u32,
            key: u32,
            value: u32,
        ) -> u64;

        pub fn lane_serve(
            record: *mut u32,
            record_words: usize,
            cells: *mut u32,
            cell_words: usize,
            calls: *const u8,
            call_bytes: usize,
            answers: *mut u8,
            answer_bytes: usize,
        ) -> LaneServed;
    }
}

/// One call by its numbers on any words. A kind other than 1 to 6 is RECORD before anything else; a record of other
/// than [`RECORD_WORDS`] words, or with a state word above 3, is BOARD; on both nothing changes.
///
/// ```
/// use lane::{words, Refusal};
///
/// let (mut record, mut cells) = ([0; words::RECORD_WORDS], [0; 16]);
/// assert_eq!(words::call(&mut record, &mut cells, 1, 0, 0, 0), Ok(1));
/// assert_eq!(record[..3], [1, 1, 0]); // place 0 is open, transaction 1, view 0
/// assert_eq!(words::call(&mut record, &mut cells, 9, 0, 0, 0), Err(Refusal::Record));
/// assert_eq!(words::call(&mut record[1..], &mut cells, 1, 0, 0, 0), Err(Refusal::Board));
/// assert_eq!(words::call(&mut record, &mut cells[..6], 1, 1, 0, 0), Err(Refusal::Board));
/// ```
pub fn call(record: &mut [u32], cells: &mut [u32], kind: u32, place: u32, key: u32, value: u32) -> Answer {
    let both = call_number(record, cells, kind, place, key, value);
    match (both >> 32) as u32 {
        0 => Ok(both as u32),
        number => Err(Refusal::numbered(number).expect("a number of the table, as is proved")),
    }
}

/// As [`call`], with the answer as it comes from C: the refusal number in the upper 32 bits, the value in the lower.
pub fn call_number(record: &mut [u32], cells: &mut [u32], kind: u32, place: u32, key: u32, value: u32) -> u64 {
    // SAFETY: two exclusive slices: valid, aligned, not null, of the lengths given, and apart from each other.
    unsafe {
        let (record, record_words) = (record.as_mut_ptr(), record.len());
        let (cells, cell_words) = (cells.as_mut_ptr(), cells.len());
        c::lane_call(record, record_words, cells, cell_words, kind, place, key, value)
    }
}

/// The call records in `calls`, one after the other, each answered by a record in `answers`. Bytes of `answers` past
/// those written stay as they were.
///
/// ```
/// use lane::words::{serve, Why, RECORD_WORDS};
///
/// let (mut record, mut cells, mut answers) = ([0; RECORD_WORDS], [0; 4], [0xFF; 16]);
/// let served = serve(&mut record, &mut cells, b"CL\x01\x04\0\0\0\0\0\0CL\x00", &mut answers);
/// assert_eq!((served.taken, served.written, served.why), (10, 8, Why::End));
/// assert_eq!(answers, *b"AN\0\x04\x01\0\0\0\xFF\xFF\xFF\xFF\xFF\xFF\xFF\xFF");
/// ```
pub fn serve(record: &mut [u32], cells: &mut [u32], calls: &[u8], answers: &mut [u8]) -> Served {
    // SAFETY: three exclusive slices and a shared one, as above.
    let c::LaneServed { taken, written, why } = unsafe {
        let (record, record_words) = (record.as_mut_ptr(), record.len());
        let (cells, cell_words) = (cells.as_mut_ptr(), cells.len());
        let (room, answer_bytes) = (answers.as_mut_ptr(), answers.len());
        c::lane_serve(record, record_words, cells, cell_words, calls.as_ptr(), calls.len(), room, answer_bytes)
    };
    let why = [Why::End, Why::NoCall, Why::NoRoom, Why::NoBoard][why as usize];
    Served { taken: taken as usize, written: written as usize, why }
}
