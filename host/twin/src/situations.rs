//! "Situations on the road": the eleven situations of document 01 as a list of boards, calls and what comes back.

use super::board::{Call, BOARD, CELL_WORDS, CONFLICT, FULL, KEY, OK, PLACE, PREPARED, SPOILED};

/// One fresh board with so many words, the calls made on it in order, and what each gives: number and value.
pub struct Play {
    pub words: usize,
    pub calls: Vec<(Call, u32, u32)>,
    /// The words at the end, where the situation speaks of them.
    pub ends: Option<Vec<u32>>,
}

pub struct Situation {
    pub number: u32,
    /// "P marks those proved."
    pub proved: bool,
    /// The paper's text.
    pub text: &'static str,
    pub plays: Vec<Play>,
}

fn start(place: u32) -> Call {
    Call::Start { place }
}
fn read(place: u32, key: u32) -> Call {
    Call::Read { place, key }
}
fn update(place: u32, key: u32, value: u32) -> Call {
    Call::Update { place, key, value }
}
fn prepare(place: u32) -> Call {
    Call::Prepare { place }
}
fn commit(place: u32) -> Call {
    Call::Commit { place }
}
fn rollback(place: u32) -> Call {
    Call::Rollback { place }
}

/// "Boards are fresh with 4 cells unless said."
const FOUR: usize = 4 * CELL_WORDS;
/// "one cell", "two cells"
const ONE: usize = CELL_WORDS;
const TWO: usize = 2 * CELL_WORDS;

fn play(words: usize, calls: &[(Call, u32, u32)]) -> Play {
    Play { words, calls: calls.to_vec(), ends: None }
}

fn situation(number: u32, text: &'static str, plays: Vec<Play>) -> Situation {
    Situation { number, proved: number != 11, text, plays }
}

/// The eleven, in the paper's order.
pub fn situations() -> Vec<Situation> {
    vec![
        nothing_written(),
        second_release(),
        spoiled_then_started_again(),
        two_writers(),
        two_reads_two_writes(),
        prepared(),
        full(),
        spent(),
        kept_by_a_view(),
        last_place_and_key(),
        lengths(),
    ]
}

/// Situation 2, which situation 3 goes on from.
fn second_release_calls() -> Vec<(Call, u32, u32)> {
    vec![
        (start(0), OK, 1),
        (update(0, 7, 12), OK, 0),
        (start(1), OK, 2),
        (read(1, 7), OK, 0),
        (commit(0), OK, 1),
        (read(1, 7), OK, 0),
        (update(1, 7, 0), CONFLICT, 0),
    ]
}

fn nothing_written() -> Situation {
    situation(1, "start at 0, read key 7: 0.", vec![play(FOUR, &[(start(0), OK, 1), (read(0, 7), OK, 0)])])
}

fn second_release() -> Situation {
    situation(
        2,
        "place 0 starts and updates 7 to 12; place 1 starts and reads 7: 0. Place 0 commits. Place 1 reads 7: \
             still 0. Place 1 updates 7 to 0: CONFLICT. This is the second release.",
        vec![play(FOUR, &second_release_calls())],
    )
}

fn spoiled_then_started_again() -> Situation {
    situation(
        3,
        "after 2, place 1 reads: SPOILED; rolls back: OK; starts: transaction 3; reads 7: 12.",
        vec![play(
            FOUR,
            &[
                second_release_calls(),
                vec![(read(1, 7), SPOILED, 0), (rollback(1), OK, 0), (start(1), OK, 3), (read(1, 7), OK, 12)],
            ]
            .concat(),
        )],
    )
}

fn two_writers() -> Situation {
    situation(
        4,
        "0 and 1 open; 0 updates 5; 1 updates 5: CONFLICT. 0 rolls back; 1 reads 5: SPOILED still.",
        vec![play(
            FOUR,
            &[
                (start(0), OK, 1),
                (start(1), OK, 2),
                (update(0, 5, 1), OK, 0),
                (update(1, 5, 2), CONFLICT, 0),
                (rollback(0), OK, 0),
                (read(1, 5), SPOILED, 0),
            ],
        )],
    )
}

fn two_reads_two_writes() -> Situation {
    situation(
        5,
        "0 and 1 open, both read 1 and 2; 0 updates 1, 1 updates 2; both commit. Snapshot isolation allows it.",
        vec![play(
            FOUR,
            &[
                (start(0), OK, 1),
                (start(1), OK, 2),
                (read(0, 1), OK, 0),
                (read(0, 2), OK, 0),
                (read(1, 1), OK, 0),
                (read(1, 2), OK, 0),
                (update(0, 1, 1), OK, 0),
                (update(1, 2, 2), OK, 0),
                (commit(0), OK, 1),
                (commit(1), OK, 2),
            ],
        )],
    )
}

fn prepared() -> Situation {
    situation(
        6,
        "0 and 1 open; 0 updates 9 to 3 and prepares; 1 reads 9: PREPARED. 0 rolls back; 1 reads 9: 0.",
        vec![play(
            FOUR,
            &[
                (start(0), OK, 1),
                (start(1), OK, 2),
                (update(0, 9, 3), OK, 0),
                (prepare(0), OK, 0),
                (read(1, 9), PREPARED, 0),
                (rollback(0), OK, 0),
                (read(1, 9), OK, 0),
            ],
        )],
    )
}

fn full() -> Situation {
    situation(
        7,
        "one cell. Commit key 0 with commit number 1. A new transaction updating key 0: FULL; key 1: FULL.",
        vec![play(
            ONE,
            &[
                (start(0), OK, 1),
                (update(0, 0, 1), OK, 0),
                (commit(0), OK, 1),
                (start(0), OK, 2),
                (update(0, 0, 2), FULL, 0),
                (update(0, 1, 2), FULL, 0),
            ],
        )],
    )
}

fn spent() -> Situation {
    situation(
        8,
        "two cells. Commit key 0 as 1 with commit number 1, then as 2 with commit number 2. A new transaction \
             updates key 0 to 3: OK, in cell 0.",
        vec![Play {
            words: TWO,
            calls: vec![
                (start(0), OK, 1),
                (update(0, 0, 1), OK, 0),
                (commit(0), OK, 1),
                (start(0), OK, 2),
                (update(0, 0, 2), OK, 0),
                (commit(0), OK, 2),
                (start(0), OK, 3),
                (update(0, 0, 3), OK, 0),
            ],
            ends: Some(vec![1, 3, 3, 0, 1, 2, 2, 2]),
        }],
    )
}

fn kept_by_a_view() -> Situation {
    situation(
        9,
        "as 8, but place 5 opened between the two commits and stays open: FULL.",
        vec![
            play(
                TWO,
                &[
                    (start(0), OK, 1),
                    (update(0, 0, 1), OK, 0),
                    (commit(0), OK, 1),
                    (start(5), OK, 2),
                    (start(0), OK, 3),
                    (update(0, 0, 2), OK, 0),
                    (commit(0), OK, 2),
                    (start(0), OK, 4),
                    (update(0, 0, 3), FULL, 0),
                ],
            ),
            // either order of the two starts gives FULL
            play(
                TWO,
                &[
                    (start(0), OK, 1),
                    (update(0, 0, 1), OK, 0),
                    (commit(0), OK, 1),
                    (start(0), OK, 2),
                    (update(0, 0, 2), OK, 0),
                    (start(5), OK, 3),
                    (commit(0), OK, 2),
                    (start(0), OK, 4),
                    (update(0, 0, 3), FULL, 0),
                ],
            ),
        ],
    )
}

fn last_place_and_key() -> Situation {
    situation(
        10,
        "key 255 is taken, 256 is KEY; place 15 is taken, 16 is PLACE.",
        vec![play(
            FOUR,
            &[
                (start(0), OK, 1),
                (update(0, 255, 1), OK, 0),
                (update(0, 256, 1), KEY, 0),
                (read(0, 256), KEY, 0),
                (start(15), OK, 2),
                (start(16), PLACE, 0),
            ],
        )],
    )
}

fn lengths() -> Situation {
    situation(
        11,
        "Lengths 4 and 4,096 are in shape; 0, 6 and 4,100 are BOARD. Place 16 on length 6: BOARD. Update of key \
             256 while spoiled: SPOILED.",
        vec![
            play(4, &[(start(0), OK, 1)]),
            play(4_096, &[(start(0), OK, 1)]),
            play(0, &[(start(0), BOARD, 0)]),
            play(6, &[(start(0), BOARD, 0), (start(16), BOARD, 0)]),
            play(4_100, &[(start(0), BOARD, 0)]),
            play(
                FOUR,
                &[
                    (start(0), OK, 1),
                    (start(1), OK, 2),
                    (update(0, 5, 1), OK, 0),
                    (update(1, 5, 2), CONFLICT, 0),
                    (update(1, 256, 2), SPOILED, 0),
                ],
            ),
        ],
    )
}
