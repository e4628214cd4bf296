//! A second implementation of document 01, the lane board and its rules, as plainly as possible.
//!
//! It was written from the text of document 01 and the decisions about its open points, and from nothing
//! else: it shares no line with the proved crates. Where the two disagree, one of them reads the paper
//! wrongly. Each rule carries its sentence as a comment, and is then done as the sentence says it, with no
//! thought for speed.
//!
//! - [`board`]: the record, the cells, in shape, the six steps;
//! - [`records`]: call and answer records, to bytes and back, at any offset;
//! - [`words`]: the same board behind the C interface's numbers: a record as words, a kind, three numbers;
//! - [`mod@desk`]: what the desk program writes for what it reads;
//! - [`situations`]: the eleven situations of document 01 as a list.

pub mod board;
pub mod desk;
pub mod records;
pub mod situations;
pub mod words;

pub use board::{name, Answer, Board, Call, Place, Record, State};
pub use desk::desk;
