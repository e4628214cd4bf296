//! Document 01's eleven situations, on a store behind the C interface's numbers: as the twin lists them, and as the program
//! `situations` plays them.

use crate::{Difference, Store};
use lane::layout::{self, RECORD_WORDS};
use twin::board::Call;
use twin::situations::situations;

/// The four numbers of a call.
pub fn numbers(call: Call) -> [u32; 4] {
    match call {
        Call::Start { place } => [1, place, 0, 0],
        Call::Read { place, key } => [2, place, key, 0],
        Call::Update { place, key, value } => [3, place, key, value],
        Call::Prepare { place } => [4, place, 0, 0],
        Call::Commit { place } => [5, place, 0, 0],
        Call::Rollback { place } => [6, place, 0, 0],
    }
}

/// Plays each; the first answer or word that is not the paper's is a difference. Gives how many calls they were.
pub fn compare(store: &dyn Store) -> Result<u64, Difference> {
    let mut calls = 0;
    for situation in situations() {
        for play in situation.plays {
            let (mut record, mut cells) = (vec![0; RECORD_WORDS], vec![0; play.words]);
            for (call, number, value) in play.calls {
                calls += 1;
                let (gave, with) = store.call(&mut record, &mut cells, numbers(call));
                if (gave, with) != (number, value) {
                    return Err(Difference(format!(
                        "situation {}: {}\n{call:?}: the paper says {} {value}, {} gives {} {with}\n",
                        situation.number,
                        situation.text,
                        twin::name(number),
                        store.name(),
                        twin::name(gave)
                    )));
                }
            }
            if play.ends.as_ref().is_some_and(|ends| *ends != cells) {
                return Err(Difference(format!("situation {}: {} leaves {cells:?}", situation.number, store.name())));
            }
        }
    }
    Ok(calls)
}

/// What a store gives for the lines of the program `situations`, in the program's words. Each line has a number, then
/// `board N` (fresh, of N words), `goes on`, a call with what came back, or a cell with its words; the last line counts.
pub fn replayed(store: &dyn Store, lines: &str) -> String {
    let (mut record, mut cells) = (vec![0; RECORD_WORDS], Vec::new());
    let mut checks = 0;
    let mut out = String::new();
    for line in lines.lines() {
        let words: Vec<&str> = line.split(' ').collect();
        let at = |i: usize| words[i].parse::<u32>().unwrap_or_else(|_| panic!("no number in {line}"));
        let came = match words.as_slice() {
            [_, "board", _] => {
                (record, cells) = (vec![0; RECORD_WORDS], vec![0; at(2) as usize]);
                None
            }
            [_, "goes", "on"] => None,
            [_, "cell", _, "->", ..] => {
                let cell = cells[layout::cell(at(2) as usize)].iter().map(u32::to_string);
                Some(cell.collect::<Vec<_>>().join(" "))
            }
            [_, "checks,", "0", "wrong"] => {
                out += &format!("{checks} checks, 0 wrong\n");
                continue;
            }
            [_, kind, _, rest @ ..] => {
                let kinds = ["start", "read", "update", "prepare", "commit", "rollback"];
                let kind = kinds.iter().position(|k| k == kind).unwrap_or_else(|| panic!("no call in {line}"));
                let given = rest.iter().take_while(|word| **word != "->").count();
                let number = |i: usize| if i < given { at(3 + i) } else { 0 };
                let numbers = [kind as u32 + 1, at(2), number(0), number(1)];
                let (number, value) = store.call(&mut record, &mut cells, numbers);
                Some(format!("{} {value}", twin::name(number)))
            }
            _ => panic!("a line of no kind: {line}"),
        };
        let asked = line.split(" -> ").next().expect("a line has a first part");
        out += asked;
        if let Some(came) = came {
            checks += 1;
            out += &format!(" -> {came}");
        }
        out += "\n";
    }
    out
}
