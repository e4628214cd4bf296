//! `./lane story`: the second release of document 01, call by call on the proved board, and how it is refused.

use lane::{Answer, Board, Call, Refusal, State, PLACES};
use std::fmt::Write as _;
use std::io::Write as _;
use std::process::ExitCode;

/// A call of the story: what happens, the call, the answer that document 01 gives, and what it means.
struct Line {
    happens: &'static str,
    call: Call,
    answer: Answer,
    means: &'static str,
}

const OPENING: &str = "\
THE SECOND RELEASE

Two places work on one board of four cells. A key is a road segment; its value is 0 if it is free, otherwise a truck.
Place 1 looks at segment 7 before truck 12 has it, and frees it afterwards. A board that took that release would let
another truck onto the segment where truck 12 stands. Every answer below is given by the proved board.

";

const SEGMENT: u32 = 7;
const TRUCK: u32 = 12;

/// Situations 2 and 3 of document 01.
#[rustfmt::skip]
const STORY: [Line; 11] = [
    Line { happens: "Place 0 starts.", call: Call::Start { place: 0 }, answer: Ok(1), means: "transaction 1" },
    Line { happens: "Place 0 gives segment 7 to truck 12.", call: Call::Update { place: 0, key: SEGMENT, value: TRUCK }, answer: Ok(0), means: "written, not yet committed" },
    Line { happens: "Place 1 starts. Its view is the commit count, 0.", call: Call::Start { place: 1 }, answer: Ok(2), means: "transaction 2" },
    Line { happens: "Place 1 reads segment 7.", call: Call::Read { place: 1, key: SEGMENT }, answer: Ok(0), means: "free: what place 0 wrote is its own until it commits" },
    Line { happens: "Place 0 commits.", call: Call::Commit { place: 0 }, answer: Ok(1), means: "commit number 1: truck 12 holds the segment" },
    Line { happens: "Place 1 reads segment 7 again.", call: Call::Read { place: 1, key: SEGMENT }, answer: Ok(0), means: "still free: the commit is newer than its view" },
    Line { happens: "Place 1 frees segment 7. This is the second release.", call: Call::Update { place: 1, key: SEGMENT, value: 0 }, answer: Err(Refusal::Conflict), means: "refused: the segment was taken after its view" },
    Line { happens: "Place 1 reads segment 7.", call: Call::Read { place: 1, key: SEGMENT }, answer: Err(Refusal::Spoiled), means: "refused: nothing but a rollback is accepted here now" },
    Line { happens: "Place 1 rolls back.", call: Call::Rollback { place: 1 }, answer: Ok(0), means: "done" },
    Line { happens: "Place 1 starts again. Its view is 1 now.", call: Call::Start { place: 1 }, answer: Ok(3), means: "transaction 3" },
    Line { happens: "Place 1 reads segment 7.", call: Call::Read { place: 1, key: SEGMENT }, answer: Ok(TRUCK), means: "truck 12" },
];

/// The call as document 01 names it.
fn named(call: Call) -> String {
    match call {
        Call::Start { place } => format!("start, place {place}"),
        Call::Read { place, key } => format!("read, place {place}, key {key}"),
        Call::Update { place, key, value } => format!("update, place {place}, key {key}, value {value}"),
        Call::Prepare { place } => format!("prepare, place {place}"),
        Call::Commit { place } => format!("commit, place {place}"),
        Call::Rollback { place } => format!("rollback, place {place}"),
    }
}

fn told(answer: Answer) -> String {
    match answer {
        Ok(value) => format!("OK {value}"),
        Err(refusal) => refusal.to_string(),
    }
}

/// The places that are not idle and the counts, in one line.
fn places(board: &Board) -> String {
    let places = (0..PLACES as usize).filter_map(|i| board.place(i).map(|place| (i, place)));
    let busy = places.filter(|(_, p)| p.state != State::Idle);
    let mut said: Vec<String> = busy
        .map(|(i, p)| {
            let state = format!("{:?}", p.state).to_lowercase();
            format!("place {i} {state}, transaction {}, view {}", p.number, p.view)
        })
        .collect();
    said.push(format!("{} started, {} committed", board.starts(), board.commits()));
    format!("     {}\n", said.join("; "))
}

/// The cells as a row of boxes.
fn cells(board: &Board) -> String {
    const WIDE: usize = 17;
    let boxes: Vec<[String; 2]> = (0..board.cells())
        .map(|i| match board.cell(i) {
            None => ["empty".into(), String::new()],
            Some(c) if c.commit == 0 => [format!("{} = {}", c.key, c.value), format!("by {}, uncommitted", c.number)],
            Some(c) => [format!("{} = {}", c.key, c.value), format!("by {}, commit {}", c.number, c.commit)],
        })
        .collect();
    let rule = format!("     +{}\n", format!("{:-<1$}+", "", WIDE + 2).repeat(boxes.len()));
    let row = |n: usize| boxes.iter().map(|cell| format!(" {:<WIDE$} |", cell[n])).collect::<String>();
    format!("{rule}     |{}\n     |{}\n{rule}", row(0), row(1))
}

/// The whole story as text, and whether it went as document 01 says.
fn story() -> (String, bool) {
    let mut out = String::from(OPENING);
    let mut board = Board::new(4).expect("a board of four cells");
    for (i, line) in STORY.iter().enumerate() {
        let before = board.clone();
        let answer = board.call(line.call);
        writeln!(out, "{:>3}. {}", i + 1, line.happens).unwrap();
        writeln!(out, "     {:<36} {:<9}  {}", named(line.call), told(answer), line.means).unwrap();
        if answer != line.answer {
            writeln!(out, "\nDocument 01 gives {} here: this build of the board is wrong.", told(line.answer)).unwrap();
            return (out, false);
        }
        if let Err(refusal) = answer {
            writeln!(out, "     What to do next: {}.", refusal.row().next).unwrap();
        }
        if board.record_words() != before.record_words() {
            out += &places(&board);
        }
        if board.cell_words() != before.cell_words() {
            out += &cells(&board);
        }
        out += "\n";
    }
    let refusal = Refusal::Conflict;
    writeln!(
        out,
        "The second release was refused: {refusal}. Truck 12 still holds segment 7, and place 1 knows it now."
    )
    .unwrap();
    (out, true)
}

fn main() -> ExitCode {
    let (text, as_it_should) = story();
    match std::io::stdout().write_all(text.as_bytes()) {
        Ok(()) if as_it_should => ExitCode::SUCCESS,
        _ => ExitCode::FAILURE,
    }
}
