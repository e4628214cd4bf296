//! Where the words of a board stand, as `include/lane.h` lays them out. Said here once: this crate, the comparisons, the
//! bench and the story count words by these names. (The twin has names of its own, taken from the paper.)

use crate::{Cell, Place, State, MAX_CELLS, PLACES};
use std::ops::Range;

/// The words of a place: state, number, view.
pub const PLACE_WORDS: usize = 3;
/// The start count stands behind the places.
pub const STARTS: usize = PLACES as usize * PLACE_WORDS;
/// The commit count.
pub const COMMITS: usize = STARTS + 1;
/// The words of a record: those of sixteen places, then the two counts.
pub const RECORD_WORDS: usize = COMMITS + 1;
/// The words of a cell: key plus 1 (0 marks an empty cell), value, transaction number, commit number (0 while
/// uncommitted).
pub const CELL_WORDS: usize = 4;
/// The words of the most cells that a board can have.
pub const MAX_CELL_WORDS: usize = MAX_CELLS * CELL_WORDS;

/// Where the words of a place stand in a record.
pub fn place(i: usize) -> Range<usize> {
    PLACE_WORDS * i..PLACE_WORDS * (i + 1)
}

/// Where a place's state stands.
pub fn state(i: usize) -> usize {
    place(i).start
}

/// Where the number of a place's transaction stands.
pub fn number(i: usize) -> usize {
    state(i) + 1
}

/// Where the view of a place's transaction stands.
pub fn view(i: usize) -> usize {
    state(i) + 2
}

/// Where the words of a cell stand among those of all cells.
pub fn cell(i: usize) -> Range<usize> {
    CELL_WORDS * i..CELL_WORDS * (i + 1)
}

impl State {
    /// The state with this word; None above 3.
    pub fn of(word: u32) -> Option<State> {
        [State::Idle, State::Open, State::Spoiled, State::Prepared].into_iter().find(|state| state.word() == word)
    }

    /// The word of this state.
    pub const fn word(self) -> u32 {
        self as u32
    }
}

impl Place {
    /// The place in these words; None if they have no state.
    pub fn of([state, number, view]: [u32; PLACE_WORDS]) -> Option<Place> {
        Some(Place { state: State::of(state)?, number, view })
    }

    /// The words of this place.
    pub fn words(self) -> [u32; PLACE_WORDS] {
        [self.state.word(), self.number, self.view]
    }
}

impl Cell {
    /// The cell in these words; None if it is empty.
    pub fn of([word, value, number, commit]: [u32; CELL_WORDS]) -> Option<Cell> {
        Some(Cell { key: word.checked_sub(1)?, value, number, commit })
    }
}
