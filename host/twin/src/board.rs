//! The board and the steps.

/// "**Places** 0 to 15."
pub const PLACES: usize = 16;
/// "**Keys** 0 to 255, one a road segment."
pub const KEYS: u32 = 256;
/// "1 to 1,024 cells"
pub const CELLS: usize = 1_024;
/// "four to a cell"
pub const CELL_WORDS: usize = 4;
/// "the start count is at most 4,000,000,000"
pub const STARTS: u32 = 4_000_000_000;

// "What comes back": the numbers of the table.
pub const OK: u32 = 0;
pub const BOARD: u32 = 1;
pub const PLACE: u32 = 2;
pub const BUSY: u32 = 3;
pub const IDLE: u32 = 4;
pub const WORN: u32 = 5;
pub const SPOILED: u32 = 6;
pub const HELD: u32 = 7;
pub const KEY: u32 = 8;
pub const CONFLICT: u32 = 9;
pub const PREPARED: u32 = 10;
pub const FULL: u32 = 11;
pub const RECORD: u32 = 12;

/// The name that the table gives to a number.
pub fn name(number: u32) -> &'static str {
    const NAMES: [&str; 13] = [
        "OK", "BOARD", "PLACE", "BUSY", "IDLE", "WORN", "SPOILED", "HELD", "KEY", "CONFLICT", "PREPARED", "FULL",
        "RECORD",
    ];
    NAMES.get(number as usize).copied().unwrap_or("?")
}

/// "A place is idle or has one transaction: a state (open, spoiled or prepared)"
#[derive(Clone, Copy, Debug, PartialEq, Eq)]
pub enum State {
    Idle,
    Open,
    Spoiled,
    Prepared,
}

/// "a state (open, spoiled or prepared), a transaction number and a view"
#[derive(Clone, Copy, Debug, PartialEq, Eq)]
pub struct Place {
    pub state: State,
    pub number: u32,
    pub view: u32,
}

/// "These, with a start count and a commit count, are one record"
#[derive(Clone, Copy, Debug, PartialEq, Eq)]
pub struct Record {
    pub places: [Place; PLACES],
    pub starts: u32,
    pub commits: u32,
}

/// "four to a cell: key plus 1 (0 marks an empty cell), value, transaction number, commit number (0 while
/// uncommitted)"
#[derive(Clone, Copy, Debug, PartialEq, Eq)]
pub struct Cell {
    pub word: u32,
    pub value: u32,
    pub number: u32,
    pub commit: u32,
}

/// The six calls. Place, key and value may be any 32-bit number: the step refuses those out of range.
#[derive(Clone, Copy, Debug, PartialEq, Eq)]
pub enum Call {
    Start { place: u32 },
    Read { place: u32, key: u32 },
    Update { place: u32, key: u32, value: u32 },
    Prepare { place: u32 },
    Commit { place: u32 },
    Rollback { place: u32 },
}

/// What comes back: a number of the table and a value.
#[derive(Clone, Copy, Debug, PartialEq, Eq)]
pub struct Answer {
    pub number: u32,
    pub value: u32,
}

/// The record with the lent run of words beside it. Both may hold anything at all.
#[derive(Clone, Debug, PartialEq, Eq)]
pub struct Board {
    pub record: Record,
    pub cells: Vec<u32>,
}

/// "Calls that name no answer above return 0."
fn ok(value: u32) -> Answer {
    Answer { number: OK, value }
}

/// "Every refusal returns value 0"
fn refused(number: u32) -> Answer {
    Answer { number, value: 0 }
}

impl Call {
    pub fn place(self) -> u32 {
        match self {
            Call::Start { place }
            | Call::Read { place, .. }
            | Call::Update { place, .. }
            | Call::Prepare { place }
            | Call::Commit { place }
            | Call::Rollback { place } => place,
        }
    }

    /// The key, of those calls that have one.
    pub fn key(self) -> Option<u32> {
        match self {
            Call::Read { key, .. } | Call::Update { key, .. } => Some(key),
            _ => None,
        }
    }
}

impl Cell {
    /// "key plus 1 (0 marks an empty cell)": emptiness is a matter of the first word alone.
    pub fn empty(self) -> bool {
        self.word == 0
    }

    /// The cell is of this key. Taken over the whole numbers, so that no key plus 1 wraps to 0.
    pub fn of_key(self, key: u32) -> bool {
        u64::from(self.word) == u64::from(key) + 1
    }

    /// "A nonempty cell is committed if its commit number is above 0."
    pub fn committed(self) -> bool {
        !self.empty() && self.commit > 0
    }

    /// "A cell is *own* if nonempty, uncommitted and with T's number"
    pub fn own(self, t: u32) -> bool {
        !self.empty() && self.commit == 0 && self.number == t
    }

    /// "*foreign* if nonempty, uncommitted and with another number"
    pub fn foreign(self, t: u32) -> bool {
        !self.empty() && self.commit == 0 && self.number != t
    }
}

impl Board {
    /// "A fresh board has every place idle with number and view 0, both counts 0 and every word 0."
    pub fn fresh(cells: usize) -> Board {
        let idle = Place { state: State::Idle, number: 0, view: 0 };
        Board { record: Record { places: [idle; PLACES], starts: 0, commits: 0 }, cells: vec![0; cells * CELL_WORDS] }
    }

    /// How many whole cells there are.
    fn count(&self) -> usize {
        self.cells.len() / CELL_WORDS
    }

    /// The cell with this number.
    pub fn cell(&self, i: usize) -> Cell {
        let [word, value, number, commit] = self.cells.as_chunks::<CELL_WORDS>().0[i];
        Cell { word, value, number, commit }
    }

    fn put(&mut self, i: usize, Cell { word, value, number, commit }: Cell) {
        self.cells.as_chunks_mut::<CELL_WORDS>().0[i] = [word, value, number, commit];
    }

    /// The whole cells, in the order of their numbers.
    pub fn all(&self) -> impl Iterator<Item = Cell> + '_ {
        (0..self.count()).map(|i| self.cell(i))
    }

    /// "A board is **in shape** if .."
    pub fn in_shape(&self) -> bool {
        let record = &self.record;
        let busy: Vec<Place> = record.places.iter().copied().filter(|p| p.state != State::Idle).collect();

        // "a length that is a multiple of 4, from 4 to 4,096 words"
        let words = self.cells.len();
        let length = words.is_multiple_of(CELL_WORDS) && (CELL_WORDS..=CELLS * CELL_WORDS).contains(&words);
        // "the start count is at most 4,000,000,000"
        let starts = record.starts <= STARTS;
        // "the commit count plus the number of places not idle is at most the start count"
        let counts = u64::from(record.commits) + busy.len() as u64 <= u64::from(record.starts);
        // "at the places not idle transaction numbers are distinct"
        let distinct = (0..busy.len()).all(|i| (0..i).all(|j| busy[i].number != busy[j].number));
        // "and from 1 to the start count"
        let numbers = busy.iter().all(|p| 1 <= p.number && p.number <= record.starts);
        // "and views at most the commit count"
        let views = busy.iter().all(|p| p.view <= record.commits);

        length && starts && counts && distinct && numbers && views
    }

    /// One call: the checks, then the step.
    pub fn call(&mut self, call: Call) -> Answer {
        // "Checks run in this order: 1, 2, then 3 or 4, then 5, 6, 7, 8, then the step's own."
        if !self.in_shape() {
            return refused(BOARD);
        }
        if call.place() > 15 {
            return refused(PLACE);
        }
        let at = call.place() as usize;
        let state = self.record.places[at].state;
        let start = matches!(call, Call::Start { .. });
        // "start at a place not idle"
        if start && state != State::Idle {
            return refused(BUSY);
        }
        // "another call at an idle place"
        if !start && state == State::Idle {
            return refused(IDLE);
        }
        // "start with the start count at 4,000,000,000"
        if start && self.record.starts == STARTS {
            return refused(WORN);
        }
        // "read, update, prepare or commit on a spoiled transaction"
        if state == State::Spoiled && !matches!(call, Call::Rollback { .. }) {
            return refused(SPOILED);
        }
        // "read, update or prepare on a prepared one"
        if state == State::Prepared && matches!(call, Call::Read { .. } | Call::Update { .. } | Call::Prepare { .. }) {
            return refused(HELD);
        }
        // "key above 255"
        if call.key().is_some_and(|key| key > 255) {
            return refused(KEY);
        }
        match call {
            Call::Start { .. } => self.start(at),
            Call::Read { key, .. } => self.read(at, key),
            Call::Update { key, value, .. } => self.update(at, key, value),
            Call::Prepare { .. } => self.prepare(at),
            Call::Commit { .. } => self.commit(at),
            Call::Rollback { .. } => self.rollback(at),
        }
    }

    /// "**Start**: the start count grows by one and becomes T's number; V is the commit count. Answer: T's number."
    fn start(&mut self, at: usize) -> Answer {
        self.record.starts += 1;
        let number = self.record.starts;
        self.record.places[at] = Place { state: State::Open, number, view: self.record.commits };
        ok(number)
    }

    /// "**Read key**: .."
    fn read(&mut self, at: usize, key: u32) -> Answer {
        let Place { number: t, view: v, .. } = self.record.places[at];
        // "the lowest own cell's value for the key."
        if let Some(i) = self.lowest_own(t, key) {
            return ok(self.cell(i).value);
        }
        // "Otherwise PREPARED if a foreign cell of the key has the number of a transaction at a prepared place."
        if self.all().any(|c| c.of_key(key) && c.foreign(t) && self.at_prepared_place(c.number)) {
            return refused(PREPARED);
        }
        // "Otherwise the value in the key's committed cell with the greatest commit number that is at most V"
        // (a tie goes to the lowest cell number, so only a greater number replaces one found before)
        let mut newest: Option<Cell> = None;
        for c in self.all().filter(|c| c.of_key(key) && c.committed() && c.commit <= v) {
            if newest.is_none_or(|n| c.commit > n.commit) {
                newest = Some(c);
            }
        }
        // "if there is none, 0."
        ok(newest.map_or(0, |c| c.value))
    }

    /// "**Update key, value**: .."
    fn update(&mut self, at: usize, key: u32, value: u32) -> Answer {
        let Place { number: t, view: v, .. } = self.record.places[at];
        // "if an own cell of the key exists, the lowest one takes the value."
        if let Some(i) = self.lowest_own(t, key) {
            let own = self.cell(i);
            self.put(i, Cell { value, ..own });
            return ok(0);
        }
        // "Otherwise CONFLICT if the key has a foreign cell or a committed cell with commit number above V"
        if self.all().any(|c| c.of_key(key) && (c.foreign(t) || c.committed() && c.commit > v)) {
            // "T becomes spoiled."
            self.record.places[at].state = State::Spoiled;
            return refused(CONFLICT);
        }
        // "Otherwise the lowest-numbered empty or spent cell is written whole; FULL if there is none."
        match (0..self.count()).find(|&i| self.cell(i).empty() || self.spent(self.cell(i))) {
            Some(i) => {
                self.put(i, Cell { word: key + 1, value, number: t, commit: 0 });
                ok(0)
            }
            None => refused(FULL),
        }
    }

    /// "**Prepare**: the state becomes prepared."
    fn prepare(&mut self, at: usize) -> Answer {
        self.record.places[at].state = State::Prepared;
        ok(0)
    }

    /// "**Commit**, open or prepared: the commit count grows by one; every own cell takes it as commit number; the
    /// place becomes idle. Answer: that number. A commit without writes takes a number too."
    fn commit(&mut self, at: usize) -> Answer {
        let t = self.record.places[at].number;
        self.record.commits += 1;
        let commit = self.record.commits;
        for i in 0..self.count() {
            let cell = self.cell(i);
            if cell.own(t) {
                self.put(i, Cell { commit, ..cell });
            }
        }
        self.make_idle(at);
        ok(commit)
    }

    /// "**Rollback**, in any state: every own cell becomes four zeros; the place becomes idle."
    fn rollback(&mut self, at: usize) -> Answer {
        let t = self.record.places[at].number;
        for i in 0..self.count() {
            if self.cell(i).own(t) {
                self.put(i, Cell { word: 0, value: 0, number: 0, commit: 0 });
            }
        }
        self.make_idle(at);
        ok(0)
    }

    /// "A step that makes a place idle leaves zeros there beside the state."
    fn make_idle(&mut self, at: usize) {
        self.record.places[at] = Place { state: State::Idle, number: 0, view: 0 };
    }

    /// The number of the lowest own cell of the key.
    pub fn lowest_own(&self, t: u32, key: u32) -> Option<usize> {
        (0..self.count()).find(|&i| self.cell(i).of_key(key) && self.cell(i).own(t))
    }

    fn at_prepared_place(&self, number: u32) -> bool {
        self.record.places.iter().any(|p| p.state == State::Prepared && p.number == number)
    }

    /// "A committed cell with commit number c is **spent** if .."
    pub fn spent(&self, cell: Cell) -> bool {
        let c = cell.commit;
        // the committed cells of "the same key", by the key word as it stands
        let same = || self.all().filter(|other| other.word == cell.word && other.committed());
        cell.committed()
            // "the same key has a committed cell with a number above c"
            && same().any(|other| other.commit > c)
            // "and no open place has a view W with c ≤ W and no committed cell of that key numbered above c and at
            // most W." "Spoiled and prepared places read no more, so their views keep nothing."
            && !self.record.places.iter().any(|place| {
                let w = place.view;
                place.state == State::Open && c <= w && !same().any(|other| c < other.commit && other.commit <= w)
            })
    }
}
