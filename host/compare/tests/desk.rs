//! The desk program against the twin: what it writes for what it reads, how it stops, and the answers that are stored.
//! `LANE_ROUNDS=n` multiplies the numbers of cases.

use compare::loops::{Fault, Loop, FAULTS};
use compare::store::{desk_program, start};
use compare::{program, rng, rounds, say, streams, Counts, Proved, Store, Twin};
use lane::ANSWER_BYTES;
use std::fs::{self, File};
use std::io::{ErrorKind, Read, Write};
use std::path::{Path, PathBuf};
use std::process::{Child, ChildStdin, ExitStatus, Stdio};
use std::time::{Duration, Instant};

#[test]
fn streams_through_the_desk() {
    let seed = 0x1A2E_0003;
    say(&format!("streams: seed {seed:#x}"));
    let counts = streams::compare(&Proved, &Twin, seed, 500_000 * rounds(), 2_500).unwrap();
    let often = ["OK", "PLACE", "BUSY", "IDLE", "SPOILED", "HELD", "KEY", "CONFLICT", "PREPARED"];
    counts.met("streams, answers", &often, 500);
}

#[test]
fn a_board_filled_to_full_through_the_desk() {
    let seed = 0x1A2E_0004;
    say(&format!("filled boards: seed {seed:#x}"));
    let mut rng = rng::Rng::new(seed);
    let mut counts = Counts::default();
    for _ in 0..2 * rounds() {
        streams::one(&Proved, &Twin, &streams::filled(&mut rng), "filled", &mut counts).unwrap();
    }
    counts.met("filled boards, answers", &["FULL", "OK"], 16 * rounds());
}

#[test]
fn streams_damaged_and_cut_everywhere() {
    let seed = 0x1A2E_0005;
    say(&format!("damaged streams: seed {seed:#x}"));
    let done = streams::damaged(&Proved, &Twin, seed, 6 * rounds() as usize).unwrap();
    say(&format!("damaged streams: {} cases, {} starts of the desk", done.cases, done.starts));
}

#[test]
fn long_streams_from_a_file() {
    let cases = streams::long(&Proved, &Twin, 0x1A2E_000B).unwrap();
    say(&format!("long streams: {cases}"));
}

#[test]
fn a_long_stream_in_parts() {
    streams::in_parts(&Twin, 0x1A2E_000C);
}

#[test]
fn a_console_that_waits_for_each_answer() {
    streams::waiting(&Twin, 0x1A2E_0006, 300);
}

/// Loops that are wrong are told from the one that is right, by the streams that the desk program gets above.
#[test]
fn wrong_loops_are_caught() {
    let caught_by = |fault| {
        let desk = Loop(fault);
        if streams::damaged(&desk, &Twin, 0x1A2E_0005, 6).is_err() {
            Some("damaged streams")
        } else if streams::long(&desk, &Twin, 0x1A2E_000B).is_err() {
            Some("long streams")
        } else {
            None
        }
    };
    assert_eq!(caught_by(Fault::Nothing), None);
    for fault in FAULTS {
        let by = caught_by(fault).unwrap_or_else(|| panic!("nothing caught {fault:?}"));
        say(&format!("{by} caught {fault:?}"));
    }
}

/// A start at place 0.
const START: streams::Bytes = [0x43, 0x4C, 1, 0, 0, 0, 0, 0, 0, 0];

/// Waits for the end of a desk that is to stop by itself.
fn ended(mut desk: Child) -> ExitStatus {
    let begun = Instant::now();
    loop {
        if let Some(status) = desk.try_wait().expect("the desk is ours") {
            return status;
        }
        if begun.elapsed() > Duration::from_secs(60) {
            desk.kill().expect("the desk is ours");
            panic!("the desk goes on");
        }
        std::thread::sleep(Duration::from_millis(1));
    }
}

/// Sends calls for as long as the desk takes them; it must stop.
fn sends_until_refused(to: &mut ChildStdin) {
    let begun = Instant::now();
    let refused = loop {
        if let Err(refused) = to.write_all(&START) {
            break refused;
        }
        assert!(begun.elapsed() < Duration::from_secs(60), "the desk reads on");
    };
    assert_eq!(refused.kind(), ErrorKind::BrokenPipe);
}

/// A write that fails stops the desk: it waits for no more input, and reads none that is there. (/dev/full refuses every
/// byte. A closed pipe would end the desk by a signal, whatever it does.)
#[test]
fn a_desk_that_cannot_write_stops() {
    let to_full = || {
        let full = File::options().write(true).open("/dev/full").expect("/dev/full");
        let mut desk = start(program::desk().stdin(Stdio::piped()).stdout(full));
        let to = desk.stdin.take().expect("piped");
        (desk, to)
    };
    // the input stays open, and nothing comes
    let (desk, mut to) = to_full();
    to.write_all(&START).expect("the desk reads");
    assert!(ended(desk).success());
    sends_until_refused(&mut to);
    // more comes all the time
    let (desk, mut to) = to_full();
    sends_until_refused(&mut to);
    assert!(ended(desk).success());
}

/// On x86-64 the program would run without its emulator too, and nobody would see that it was forgotten.
#[test]
fn the_desk_runs_behind_the_emulator_if_there_is_one() {
    let mut desk = desk_program();
    let (mut to, mut from) = (desk.stdin.take().expect("piped"), desk.stdout.take().expect("piped"));
    to.write_all(&START).expect("the desk reads");
    from.read_exact(&mut [0; ANSWER_BYTES]).expect("an answer: it runs");
    let runs = fs::read_link(format!("/proc/{}/exe", desk.id())).expect("/proc");
    assert_eq!(runs.ends_with("target/bin/desk"), program::emulator().is_none(), "{}", runs.display());
    drop(to);
    assert!(ended(desk).success());
}

fn crates() -> PathBuf {
    Path::new(env!("CARGO_MANIFEST_DIR")).join("../../crates")
}

/// The files of a folder, sorted.
fn files(folder: &Path) -> Vec<PathBuf> {
    let entries = fs::read_dir(folder).unwrap_or_else(|e| panic!("{}: {e}", folder.display()));
    let mut files: Vec<PathBuf> = entries.map(|entry| entry.expect("an entry").path()).collect();
    files.sort();
    files
}

/// Bytes that are stored as a desk's answers to others must be the twin's, and the desk program's.
fn same_as_stored(input: &Path, answers: &Path) {
    let [input_bytes, stored] =
        [input, answers].map(|path| fs::read(path).unwrap_or_else(|e| panic!("{}: {e}", path.display())));
    for store in [&Twin as &dyn Store, &Proved] {
        assert!(store.desk(&input_bytes) == stored, "{}: {} answers otherwise", input.display(), store.name());
    }
}

/// crates/streams has its streams stored in pairs, NAME and NAME.answers.
#[test]
fn the_stored_streams_have_the_twins_answers() {
    let files = files(&crates().join("streams/data"));
    let (answers, streams): (Vec<_>, Vec<_>) =
        files.into_iter().partition(|path| path.extension().is_some_and(|e| e == "answers"));
    assert!(!streams.is_empty(), "no stream is stored");
    let answers_of = |input: &PathBuf| PathBuf::from(format!("{}.answers", input.display()));
    for path in &answers {
        assert!(streams.iter().any(|input| answers_of(input) == *path), "{} has no stream", path.display());
    }
    streams.iter().for_each(|input| same_as_stored(input, &answers_of(input)));
    say(&format!("stored streams: {}", streams.len()));
}

/// A program that is run on standard input is a desk: crates/desk, and any other.
#[test]
fn the_stored_runs_of_the_desk_have_the_twins_answers() {
    let desks: Vec<PathBuf> = files(&crates()).into_iter().filter(|path| path.join("stdin").exists()).collect();
    assert!(desks.iter().any(|path| path.ends_with("desk")), "crates/desk/stdin is not there");
    desks.iter().for_each(|path| same_as_stored(&path.join("stdin"), &path.join("stdout")));
}
