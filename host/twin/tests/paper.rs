//! The twin against what document 01 prints: the situations, the byte example, the readings of its open points.

use twin::board::*;
use twin::records::*;
use twin::{desk, words};

#[test]
fn the_eleven_situations() {
    let all = twin::situations::situations();
    assert_eq!(all.iter().map(|s| s.number).collect::<Vec<_>>(), (1..=11).collect::<Vec<_>>());
    for situation in all {
        for play in situation.plays {
            let mut board = Board { cells: vec![0; play.words], ..Board::fresh(0) };
            for (call, number, value) in play.calls {
                let said = Answer { number, value };
                assert_eq!(board.call(call), said, "situation {}, {call:?}: {}", situation.number, situation.text);
            }
            if let Some(ends) = play.ends {
                assert_eq!(board.cells, ends, "situation {}", situation.number);
            }
        }
    }
}

#[test]
fn the_byte_example() {
    let input = [
        [0x43, 0x4C, 0x01, 0, 0, 0, 0, 0, 0, 0],
        [0x43, 0x4C, 0x03, 0, 0x07, 0, 0x0C, 0, 0, 0],
        [0x43, 0x4C, 0x05, 0, 0, 0, 0, 0, 0, 0],
    ];
    let output =
        [[0x41, 0x4E, 0, 0, 0x01, 0, 0, 0], [0x41, 0x4E, 0, 0, 0x00, 0, 0, 0], [0x41, 0x4E, 0, 0, 0x01, 0, 0, 0]];
    assert_eq!(desk(&input.concat()), output.concat());
}

#[test]
fn the_desk_stops_at_what_is_no_call() {
    let record = [0x41, 0x4E, 12, 0, 0, 0, 0, 0];
    let start = call_record(Call::Start { place: 200 }).unwrap();
    assert_eq!(desk(&[]), []);
    assert_eq!(desk(&[0]), record);
    assert_eq!(desk(&start[..9]), record);
    // PLACE keeps the call's place byte
    assert_eq!(desk(&start), [0x41, 0x4E, 2, 200, 0, 0, 0, 0]);
    let cut = [&start[..], &start[..3]].concat();
    assert_eq!(desk(&cut), [[0x41, 0x4E, 2, 200, 0, 0, 0, 0], record].concat());
}

/// Every call and answer record of a sample is read back as it was written, at every offset, and no other byte changes.
#[test]
fn written_then_read_at_any_offset() {
    let calls = [
        Call::Start { place: 0 },
        Call::Read { place: 255, key: 65_535 },
        Call::Update { place: 3, key: 256, value: u32::MAX },
        Call::Prepare { place: 16 },
        Call::Commit { place: 15 },
        Call::Rollback { place: 1 },
    ];
    for call in calls {
        for at in 0..=20 {
            let mut bytes = [0xEE; 20];
            let number = write_call(&mut bytes, at, call);
            if at <= 10 {
                assert_eq!((number, read_call(&bytes, at)), (OK, Some(call)));
                assert!(bytes[..at].iter().chain(&bytes[at + 10..]).all(|&b| b == 0xEE));
            } else {
                assert_eq!((number, read_call(&bytes, at), bytes), (RECORD, None, [0xEE; 20]));
            }
        }
    }
    for number in 0..=12 {
        for value in [0, 1, u32::MAX] {
            let reply = Reply { place: 255, answer: Answer { number, value } };
            let mut bytes = [0xEE; 8];
            if number == 0 || value == 0 {
                assert_eq!((write_answer(&mut bytes, 0, reply), read_answer(&bytes, 0)), (OK, Some(reply)));
            } else {
                assert_eq!((write_answer(&mut bytes, 0, reply), bytes), (RECORD, [0xEE; 8]));
            }
        }
    }
}

#[test]
fn what_has_no_record() {
    let mut bytes = [7; 32];
    for call in [
        Call::Start { place: 256 },
        Call::Read { place: 0, key: 65_536 },
        Call::Update { place: u32::MAX, key: 0, value: 0 },
    ] {
        assert_eq!(write_call(&mut bytes, 0, call), RECORD);
    }
    let ok = Answer { number: OK, value: 5 };
    assert_eq!(write_answer(&mut bytes, 0, Reply { place: 256, answer: ok }), RECORD);
    assert_eq!(write_answer(&mut bytes, 0, Reply { place: 0, answer: Answer { number: 13, value: 0 } }), RECORD);
    // "an offset past the end is RECORD", and none overflows
    for at in [25, 32, 33, usize::MAX - 9, usize::MAX] {
        assert_eq!(write_call(&mut bytes, at, Call::Start { place: 0 }), RECORD);
        assert_eq!(write_answer(&mut bytes, at, Reply { place: 0, answer: ok }), RECORD);
        assert_eq!(read_call(&bytes, at), None);
        assert_eq!(read_answer(&bytes, at), None);
    }
    assert_eq!(bytes, [7; 32]);
}

/// Cell words may hold anything; the rules read them as they stand.
#[test]
fn cells_as_they_stand() {
    let mut board = Board::fresh(3);
    assert_eq!(board.call(Call::Start { place: 0 }).value, 1);
    // an empty cell with T's number and two own cells of one key
    board.cells = vec![0, 9, 1, 0, 8, 5, 1, 0, 8, 6, 1, 0];
    assert_eq!(board.call(Call::Read { place: 0, key: 7 }), Answer { number: OK, value: 5 });
    assert_eq!(board.call(Call::Update { place: 0, key: 7, value: 4 }), Answer { number: OK, value: 0 });
    assert_eq!(board.cells, [0, 9, 1, 0, 8, 4, 1, 0, 8, 6, 1, 0]);
    assert_eq!(board.call(Call::Commit { place: 0 }), Answer { number: OK, value: 1 });
    assert_eq!(board.cells, [0, 9, 1, 0, 8, 4, 1, 1, 8, 6, 1, 1]);
    // of a tie the lowest is read, and neither spends the other
    assert_eq!(board.call(Call::Start { place: 1 }), Answer { number: OK, value: 2 });
    assert_eq!(board.call(Call::Read { place: 1, key: 7 }), Answer { number: OK, value: 4 });
    assert_eq!(board.call(Call::Update { place: 1, key: 7, value: 3 }), Answer { number: OK, value: 0 });
    assert_eq!(board.cells[..4], [8, 3, 2, 0]);
    assert_eq!(board.call(Call::Update { place: 1, key: 6, value: 3 }), Answer { number: FULL, value: 0 });
    // FULL spoils nothing; an update that meets a foreign cell does
    assert_eq!(board.call(Call::Start { place: 2 }), Answer { number: OK, value: 3 });
    assert_eq!(board.call(Call::Update { place: 2, key: 7, value: 3 }), Answer { number: CONFLICT, value: 0 });
    assert_eq!(board.record.places[2], Place { state: State::Spoiled, number: 3, view: 1 });
}

#[test]
fn worn_and_the_sum_that_does_not_wrap() {
    let mut board = Board::fresh(1);
    board.record.starts = STARTS;
    assert_eq!(board.call(Call::Start { place: 0 }).number, WORN);
    board.record.commits = u32::MAX;
    board.record.places[3] = Place { state: State::Open, number: 1, view: 0 };
    assert_eq!(board.call(Call::Rollback { place: 3 }).number, BOARD);
}

/// A board built from the wrapper's words: the record crosses unchanged, idle places with any number and view.
#[test]
fn fifty_words() {
    let mut record: Vec<u32> = (0..50).collect();
    (0..16).for_each(|i| record[3 * i] = (i % 4) as u32);
    assert_eq!(words::words_of(&words::record_of(&record).unwrap()), record[..]);
    let mut cells = [0; 4];
    assert_eq!(words::call(&mut record[..49], &mut cells, 1, 0, 0, 0).number, BOARD);
    assert_eq!(words::call(&mut record, &mut cells, 7, 0, 0, 0).number, RECORD);
    record[45] = 4;
    assert_eq!(words::call(&mut record, &mut cells, 1, 0, 0, 0).number, BOARD);
    assert_eq!(words::call(&mut record, &mut cells, 0, 99, 0, 0).number, RECORD);
}
