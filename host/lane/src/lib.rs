//! The lane board for Rust: a store of versions under snapshot isolation, proved down to every word.
//!
//! Sixteen places share one board of road segments. Each opens a view, reads who holds which segment, changes what it
//! must, and closes. Every rule is decided by the proved static library `liblane_c.a`; this crate only lends it words.
//! What a C caller owes (valid pointers and lengths, parts that do not overlap) cannot be got wrong through it: a
//! [`Board`] owns its words, and the functions of [`words`] take Rust slices.
//!
//! ```
//! use lane::{Board, Refusal};
//!
//! // Truck 12 takes segment 7; a desk that looked before must not release it a second time.
//! let mut board = Board::new(1_024).expect("1 to 1,024 cells");
//! board.start(0)?;
//! board.update(0, 7, 12)?;
//! board.start(1)?;
//! assert_eq!(board.read(1, 7), Ok(0));
//! board.commit(0)?;
//! assert_eq!(board.read(1, 7), Ok(0)); // its view is older than the commit
//! assert_eq!(board.update(1, 7, 0), Err(Refusal::Conflict));
//! # Ok::<(), Refusal>(())
//! ```

use layout::{CELL_WORDS, COMMITS, RECORD_WORDS, STARTS};

pub mod layout;
pub mod refusal;
pub mod words;

pub use refusal::Refusal;
pub use words::{Served, Why};

/// Places are 0 to 15.
pub const PLACES: u32 = 16;
/// Keys are 0 to 255.
pub const KEYS: u32 = 256;
/// A board has 1 to 1,024 cells.
pub const MAX_CELLS: usize = 1_024;
/// The start count is at most 4,000,000,000.
pub const MAX_STARTS: u32 = 4_000_000_000;
/// Bytes of a call record.
pub const CALL_BYTES: usize = 10;
/// Bytes of an answer record.
pub const ANSWER_BYTES: usize = 8;

/// One of the six calls. Any number may stand in it: the board refuses those out of range.
#[derive(Clone, Copy, Debug, PartialEq, Eq, Hash)]
pub enum Call {
    /// Opens a transaction at an idle place. Gives its number.
    Start { place: u32 },
    /// Gives the value of the key in the place's view, or the place's own write.
    Read { place: u32, key: u32 },
    /// Writes the key. Gives 0.
    Update { place: u32, key: u32, value: u32 },
    /// Announces a commit: from here on only commit and rollback are accepted. Gives 0.
    Prepare { place: u32 },
    /// Makes the writes seen by those who start later. Gives the commit number.
    Commit { place: u32 },
    /// Drops the writes. Gives 0.
    Rollback { place: u32 },
}

impl Call {
    /// Kind, place, key and value, as they cross to C and stand in a call record.
    pub fn numbers(self) -> [u32; 4] {
        match self {
            Call::Start { place } => [1, place, 0, 0],
            Call::Read { place, key } => [2, place, key, 0],
            Call::Update { place, key, value } => [3, place, key, value],
            Call::Prepare { place } => [4, place, 0, 0],
            Call::Commit { place } => [5, place, 0, 0],
            Call::Rollback { place } => [6, place, 0, 0],
        }
    }
}

/// What comes back from a call: a value, or why it was refused.
///
/// A refusal changes nothing, but for [`Refusal::Conflict`], which spoils the caller's transaction.
pub type Answer = Result<u32, Refusal>;

/// The state of a place, with its word.
#[derive(Clone, Copy, Debug, PartialEq, Eq, Hash)]
#[repr(u32)]
pub enum State {
    Idle = 0,
    Open = 1,
    Spoiled = 2,
    Prepared = 3,
}

/// A place of a board: its state, and the number and view of its transaction.
#[derive(Clone, Copy, Debug, PartialEq, Eq, Hash)]
pub struct Place {
    pub state: State,
    pub number: u32,
    pub view: u32,
}

/// A cell of a board: one version of one key.
#[derive(Clone, Copy, Debug, PartialEq, Eq, Hash)]
pub struct Cell {
    pub key: u32,
    pub value: u32,
    /// The number of the transaction that wrote it.
    pub number: u32,
    /// Its commit number; 0 while uncommitted.
    pub commit: u32,
}

/// A board: the record of its sixteen places and two counts, and its cells.
///
/// It is begun fresh and changed by calls alone, so it stays in shape and never answers [`Refusal::Board`]. (For words that
/// came from elsewhere there is [`words::call`].)
///
/// ```
/// use lane::{Board, Call, Refusal, State};
///
/// let mut board = Board::new(4).unwrap();
/// assert_eq!(board.call(Call::Start { place: 3 }), Ok(1)); // transaction 1
/// assert_eq!(board.call(Call::Update { place: 3, key: 9, value: 5 }), Ok(0));
/// assert_eq!(board.call(Call::Prepare { place: 3 }), Ok(0));
/// assert_eq!(board.call(Call::Read { place: 3, key: 9 }), Err(Refusal::Held));
/// assert_eq!(board.place(3).unwrap().state, State::Prepared);
/// assert_eq!(board.call(Call::Commit { place: 3 }), Ok(1)); // commit number 1
/// assert_eq!((board.starts(), board.commits()), (1, 1));
/// assert_eq!(board.cell(0).unwrap().value, 5);
/// assert!(Board::new(0).is_none() && Board::new(1_025).is_none());
/// ```
#[derive(Clone, Debug, PartialEq, Eq)]
pub struct Board {
    record: [u32; RECORD_WORDS],
    cells: Vec<u32>,
}

impl Board {
    /// A fresh board. None unless it has 1 to 1,024 cells.
    pub fn new(cells: usize) -> Option<Board> {
        let fresh = || Board { record: [0; RECORD_WORDS], cells: vec![0; cells * CELL_WORDS] };
        (1..=MAX_CELLS).contains(&cells).then(fresh)
    }

    /// One call.
    pub fn call(&mut self, call: Call) -> Answer {
        let [kind, place, key, value] = call.numbers();
        words::call(&mut self.record, &mut self.cells, kind, place, key, value)
    }

    /// Opens a transaction; gives its number.
    pub fn start(&mut self, place: u32) -> Answer {
        self.call(Call::Start { place })
    }

    /// Reads a key; gives its value, 0 if it was never written.
    pub fn read(&mut self, place: u32, key: u32) -> Answer {
        self.call(Call::Read { place, key })
    }

    /// Writes a key.
    pub fn update(&mut self, place: u32, key: u32, value: u32) -> Answer {
        self.call(Call::Update { place, key, value })
    }

    /// Announces a commit.
    pub fn prepare(&mut self, place: u32) -> Answer {
        self.call(Call::Prepare { place })
    }

    /// Makes the writes seen; gives the commit number.
    pub fn commit(&mut self, place: u32) -> Answer {
        self.call(Call::Commit { place })
    }

    /// Drops the writes.
    pub fn rollback(&mut self, place: u32) -> Answer {
        self.call(Call::Rollback { place })
    }

    /// Call records in, answer records out, as at the desk. See [`words::serve`].
    ///
    /// ```
    /// let mut board = lane::Board::new(1_024).unwrap();
    /// let calls = [
    ///     [0x43, 0x4C, 1, 0, 0, 0, 0, 0, 0, 0],  // start at place 0
    ///     [0x43, 0x4C, 3, 0, 7, 0, 12, 0, 0, 0], // key 7 becomes 12
    ///     [0x43, 0x4C, 5, 0, 0, 0, 0, 0, 0, 0],  // commit
    /// ];
    /// let mut answers = [0; 24];
    /// let served = board.serve(&calls.concat(), &mut answers);
    /// assert_eq!((served.taken, served.written, served.why), (30, 24, lane::Why::End));
    /// assert_eq!(answers[16..], [0x41, 0x4E, 0, 0, 1, 0, 0, 0]); // commit number 1
    /// ```
    pub fn serve(&mut self, calls: &[u8], answers: &mut [u8]) -> Served {
        words::serve(&mut self.record, &mut self.cells, calls, answers)
    }

    /// The place with this number, 0 to 15.
    pub fn place(&self, place: usize) -> Option<Place> {
        Place::of(*self.record[..STARTS].as_chunks().0.get(place)?)
    }

    /// The cell with this number; None where there is none, or it is empty.
    pub fn cell(&self, i: usize) -> Option<Cell> {
        Cell::of(*self.cells.as_chunks().0.get(i)?)
    }

    /// How many cells the board has.
    pub fn cells(&self) -> usize {
        self.cells.len() / CELL_WORDS
    }

    /// How many transactions were started.
    pub fn starts(&self) -> u32 {
        self.record[STARTS]
    }

    /// How many transactions were committed.
    pub fn commits(&self) -> u32 {
        self.record[COMMITS]
    }

    /// The record's words, as [`layout`] has them.
    pub fn record_words(&self) -> &[u32; RECORD_WORDS] {
        &self.record
    }

    /// The cells' words.
    pub fn cell_words(&self) -> &[u32] {
        &self.cells
    }
}

/// The Rust code of docs/EMBEDDING.md is run with the examples of this crate.
#[cfg(doctest)]
#[doc = include_str!("../../../docs/EMBEDDING.md")]
pub struct EmbeddingPage;
