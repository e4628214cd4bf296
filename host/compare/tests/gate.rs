//! The comparisons of the proved library with the twin, and what was planted to measure them. (Those of the desk program are
//! in desk.rs.) `LANE_ROUNDS=n` multiplies the numbers of cases.

use compare::store::SHORTCUTS;
use compare::{boards, codecs, exhaustive, rounds, say, situations, streams, Proved, Store, Twin};
use lane::Refusal;

/// The gate's numbers of cases for one round.
const BOARDS: u64 = 300_000;
const PIECE_CALLS: u64 = 200_000;
const SEQUENCES: u64 = 500_000;

fn boards(seed: u64) {
    say(&format!("boards: seed {seed:#x}"));
    let half = BOARDS / 2 * rounds();
    let (branches, numbers) = boards::compare(&Proved, &Twin, seed, half).unwrap();
    // what one call can be answered: OK and document 01's refusals
    let refusals = Refusal::ALL[..Refusal::Record as usize].iter().map(|refusal| refusal.name());
    let all: Vec<&str> = ["OK"].into_iter().chain(refusals).collect();
    numbers.met("boards, answers", &all, half / 200);
    branches.met("boards, branches", &boards::BRANCHES, half / 3_000);
}

#[test]
fn boards_of_any_words() {
    boards(0x1A2E_0001);
}

#[test]
fn boards_of_any_words_again() {
    boards(0x1A2E_0002);
}

#[test]
fn streams_in_pieces_on_small_boards() {
    let seed = 0x1A2E_0007;
    say(&format!("streams in pieces: seed {seed:#x}"));
    let counts = streams::pieces(&Proved, &Twin, seed, PIECE_CALLS * rounds()).unwrap();
    let often = ["OK", "CONFLICT", "PREPARED", "FULL", "HELD", "SPOILED", "RECORD"];
    counts.met("streams in pieces, answers", &often, 50);
}

#[test]
fn all_sequences_of_calls() {
    let mut all = 0;
    for cells in 1..=3 {
        let (depth, sequences) = exhaustive::compare(&Proved, &Twin, cells, SEQUENCES * rounds() / 3).unwrap();
        say(&format!("sequences: {sequences} up to {depth} calls on {cells} cells"));
        all += sequences;
    }
    assert!(all >= SEQUENCES);
}

#[test]
fn records_in_all_damaged_forms() {
    codecs::compare(&Proved, &Twin).unwrap();
}

#[test]
fn the_eleven_situations() {
    let twin = situations::compare(&Twin).unwrap();
    let proved = situations::compare(&Proved).unwrap();
    assert_eq!(twin, proved);
    say(&format!("situations: {twin} calls"));
}

/// The program `situations` has its output stored beside it; the twin and `lane_call` give the same, line by line.
#[test]
fn the_stored_output_of_the_program_situations() {
    let path = std::path::Path::new(env!("CARGO_MANIFEST_DIR")).join("../../crates/situations/stdout");
    let stored = std::fs::read_to_string(&path).expect("crates/situations/stdout");
    for number in 1..=11 {
        assert!(
            stored.lines().any(|line| line.starts_with(&format!("{number}.1 "))),
            "situation {number} is not there"
        );
    }
    for store in [&Twin as &dyn Store, &Proved] {
        for (ours, theirs) in situations::replayed(store, &stored).lines().zip(stored.lines()) {
            assert_eq!(ours, theirs, "({}, the stored output)", store.name());
        }
        assert!(situations::replayed(store, &stored) == stored);
    }
    say(&format!("situations, stored output: {}", stored.lines().last().unwrap_or("nothing")));
}

/// Each of document 01's four shortcuts, planted in a copy of the twin, is caught by each of the comparisons.
#[test]
fn the_four_shortcuts_are_caught() {
    assert_eq!(SHORTCUTS.len(), 4);
    for shortcut in &SHORTCUTS {
        let mut rng = compare::rng::Rng::new(0x1A2E_0008);
        let found = [
            ("boards", boards::compare(&Proved, shortcut, rng.draw(), BOARDS).err()),
            ("streams", streams::compare(&Proved, shortcut, rng.draw(), 50_000, 500).err()),
            ("streams in pieces", streams::pieces(&Proved, shortcut, rng.draw(), PIECE_CALLS).err()),
            ("sequences", exhaustive::compare(&Proved, shortcut, 2, SEQUENCES).err()),
        ];
        for (comparison, difference) in found {
            let difference = difference.unwrap_or_else(|| panic!("{comparison} did not catch {}", shortcut.name()));
            // the case in full where it is shortest, as a sequence of calls on a fresh board
            let case = if comparison == "sequences" { format!(": {difference:?}") } else { String::new() };
            say(&format!("{comparison} caught {}{case}", shortcut.name()));
        }
    }
}

/// Each misreading of some sentence of document 01, planted in a copy of the twin, is caught by one of the comparisons:
/// the generators reach what the sentence decides.
#[cfg(feature = "misreadings")]
#[test]
fn misreadings_are_caught() {
    let mut caught = compare::Counts::default();
    let filled = streams::filled(&mut compare::rng::Rng::new(0x1A2E_0004)).concat();
    let answers = Proved.desk(&filled);
    for misreading in &compare::store::MISREADINGS {
        let by = if boards::compare(&Proved, misreading, 0x1A2E_0009, BOARDS / 2).is_err() {
            "boards"
        } else if codecs::compare(&Proved, misreading).is_err() {
            "records"
        } else if streams::damaged(&Proved, misreading, 0x1A2E_000A, 1).is_err() {
            "damaged streams"
        } else if misreading.desk(&filled) != answers {
            "filled boards"
        } else {
            panic!("no comparison caught {}", misreading.name());
        };
        say(&format!("{by} caught {}", misreading.name()));
        caught.add(by);
    }
    caught.met("misreadings caught", &["boards", "records", "damaged streams"], 1);
}
