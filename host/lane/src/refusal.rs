//! The refusals of document 01 as one table: number, name, what it means, and what to do next.
//!
//! To add one: a line in [`Refusal`] and a row in [`TABLE`], by number. The table of docs/EMBEDDING.md is held to this one.

use std::fmt;

/// Why a call was refused. [`TABLE`] tells what each means and what to do next.
#[derive(Clone, Copy, Debug, PartialEq, Eq, Hash)]
#[repr(u32)]
pub enum Refusal {
    Board = 1,
    Place = 2,
    Busy = 3,
    Idle = 4,
    Worn = 5,
    Spoiled = 6,
    Held = 7,
    Key = 8,
    Conflict = 9,
    Prepared = 10,
    Full = 11,
    Record = 12,
}

/// A row of the table of refusals.
#[derive(Clone, Copy, Debug, PartialEq, Eq)]
pub struct Row {
    pub refusal: Refusal,
    /// Its name in document 01's table.
    pub name: &'static str,
    /// When it is given.
    pub means: &'static str,
    /// What to do next, for someone at a console.
    pub next: &'static str,
}

const fn row(refusal: Refusal, name: &'static str, means: &'static str, next: &'static str) -> Row {
    Row { refusal, name, means, next }
}

/// All refusals, by number: `TABLE[n - 1]` has number n.
pub const TABLE: &[Row] = &[
    row(
        Refusal::Board,
        "BOARD",
        "the board is not in shape",
        "take a saved copy or a fresh board: calls on a fresh board never lead to such words",
    ),
    row(Refusal::Place, "PLACE", "place above 15", "name a place from 0 to 15"),
    row(
        Refusal::Busy,
        "BUSY",
        "start at a place not idle",
        "commit or roll back there first, or start at an idle place",
    ),
    row(Refusal::Idle, "IDLE", "another call at an idle place", "start there first"),
    row(
        Refusal::Worn,
        "WORN",
        "start with the start count at 4,000,000,000",
        "end what is open, and go on with a fresh board",
    ),
    row(
        Refusal::Spoiled,
        "SPOILED",
        "read, update, prepare or commit on a spoiled transaction",
        "roll back, start again and look again",
    ),
    row(Refusal::Held, "HELD", "read, update or prepare on a prepared transaction", "commit or roll back"),
    row(Refusal::Key, "KEY", "key above 255", "name a key from 0 to 255"),
    row(
        Refusal::Conflict,
        "CONFLICT",
        "update of a key that another writer holds, or changed after the caller's view; it spoils the transaction",
        "roll back, start again and look again before you write",
    ),
    row(
        Refusal::Prepared,
        "PREPARED",
        "read of a key that a prepared writer holds",
        "read again when that writer has committed or rolled back",
    ),
    row(
        Refusal::Full,
        "FULL",
        "update with no cell empty or spent",
        "commit or roll back some transaction, a long one if you can, and update again",
    ),
    row(
        Refusal::Record,
        "RECORD",
        "a kind that is no call, or bytes that are no call record",
        "correct the call: its mark, a kind from 1 to 6, zeros where the kind has no key or value",
    ),
];

impl Refusal {
    /// All of them, by number: `ALL[n - 1]` has number n.
    pub const ALL: [Refusal; TABLE.len()] = {
        let mut all = [Refusal::Board; TABLE.len()];
        let mut i = 0;
        while i < all.len() {
            all[i] = TABLE[i].refusal;
            assert!(all[i] as usize == i + 1, "the rows stand by number");
            i += 1;
        }
        all
    };

    /// The refusal with this number.
    pub fn numbered(number: u32) -> Option<Refusal> {
        Refusal::ALL.into_iter().find(|refusal| refusal.number() == number)
    }

    /// The refusal number, from 1 on.
    pub fn number(self) -> u32 {
        self as u32
    }

    /// Its row of the table.
    pub fn row(self) -> &'static Row {
        &TABLE[self as usize - 1]
    }

    /// The name in document 01's table.
    pub fn name(self) -> &'static str {
        self.row().name
    }
}

/// The name; with `{:#}` the whole row.
///
/// ```
/// use lane::Refusal;
///
/// assert_eq!(Refusal::Idle.to_string(), "IDLE");
/// assert_eq!(format!("{:#}", Refusal::Idle), "IDLE (4): another call at an idle place. Next: start there first.");
/// ```
impl fmt::Display for Refusal {
    fn fmt(&self, f: &mut fmt::Formatter<'_>) -> fmt::Result {
        let Row { name, means, next, .. } = self.row();
        match f.alternate() {
            true => write!(f, "{name} ({}): {means}. Next: {next}.", self.number()),
            false => f.write_str(name),
        }
    }
}

impl std::error::Error for Refusal {}
