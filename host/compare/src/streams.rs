//! Streams of call records: through the desk program, byte for byte, and through `lane_serve` in pieces.

use crate::rng::Rng;
use crate::store::desk_program;
use crate::{codecs, fresh, shrink, Counts, Difference, Progress, Store};
use lane::{State, ANSWER_BYTES, CALL_BYTES, KEYS, MAX_CELLS, PLACES};
use std::io::{Read, Write};
use std::sync::mpsc;
use std::time::{Duration, Instant};
use twin::board::Call;
use twin::records::{call_record, read_answer, read_call};

pub use crate::codecs::Bytes;

/// RECORD with place 0 and value 0.
pub const RECORD: [u8; ANSWER_BYTES] = [0x41, 0x4E, 12, 0, 0, 0, 0, 0];

/// About as many bytes as the desk reads at once, and more than it reads in two reads.
pub const READ: usize = 65_536;
const LONG: usize = 140_000;

/// What a stream is made of.
#[derive(Clone, Copy)]
pub struct Kind {
    pub name: &'static str,
    /// Places 0 to `places` less one are used.
    places: u32,
    /// The last `staying` places of them start, read, and close one time in two hundred.
    staying: u32,
    /// Keys 0 to `keys` less one are used.
    keys: u32,
    /// Weights at a place that is not idle: read, update, prepare, commit, rollback.
    weights: [u32; 5],
    /// So many of a hundred calls of a spoiled writer are a rollback.
    gives_up: u32,
    /// So many of a hundred calls are any call at all, with any place and key.
    wild: u32,
}

#[rustfmt::skip]
pub const KINDS: [Kind; 6] = [
    Kind { name: "few keys, many places", places: 16, staying: 0, keys: 4, weights: [30, 40, 3, 15, 12], gives_up: 80, wild: 1 },
    Kind { name: "long-lived views", places: 10, staying: 6, keys: 6, weights: [15, 45, 2, 35, 3], gives_up: 90, wild: 1 },
    Kind { name: "prepared readers", places: 8, staying: 0, keys: 5, weights: [45, 25, 12, 10, 8], gives_up: 80, wild: 1 },
    Kind { name: "spoiled writers", places: 16, staying: 1, keys: 8, weights: [20, 60, 5, 10, 5], gives_up: 10, wild: 1 },
    Kind { name: "all keys", places: 4, staying: 1, keys: 256, weights: [25, 50, 1, 22, 2], gives_up: 90, wild: 0 },
    Kind { name: "anything", places: 16, staying: 0, keys: 8, weights: [20, 40, 10, 20, 10], gives_up: 50, wild: 40 },
];

fn bytes(call: Call) -> Bytes {
    call_record(call).expect("places up to 255 and keys up to 65,535 have records")
}

/// A call at this place: 0 start, 1 read, 2 update, 3 prepare, 4 commit, 5 rollback.
fn call(which: usize, place: u32, key: u32, value: u32) -> Call {
    match which {
        0 => Call::Start { place },
        1 => Call::Read { place, key },
        2 => Call::Update { place, key, value },
        3 => Call::Prepare { place },
        4 => Call::Commit { place },
        _ => Call::Rollback { place },
    }
}

/// What a generator of streams keeps in mind, so that its calls are to the point: which places are idle, spoiled or
/// prepared, and who holds a key. It decides no answer; where it is wrong, a call is only less to the point.
struct Foresight {
    state: [State; PLACES as usize],
    view: [u64; PLACES as usize],
    holder: [Option<u32>; KEYS as usize],
    changed: [u64; KEYS as usize],
    now: u64,
}

impl Foresight {
    fn of_a_fresh_board() -> Foresight {
        let (state, view) = ([State::Idle; PLACES as usize], [0; PLACES as usize]);
        Foresight { state, view, holder: [None; KEYS as usize], changed: [0; KEYS as usize], now: 0 }
    }

    fn take(&mut self, which: usize, place: u32, key: u32) {
        let at = place as usize;
        self.now += 1;
        match which {
            0 => (self.state[at], self.view[at]) = (State::Open, self.now),
            2 if self.state[at] == State::Open && self.holder[key as usize] != Some(place) => {
                if self.holder[key as usize].is_some() || self.changed[key as usize] > self.view[at] {
                    self.state[at] = State::Spoiled;
                } else {
                    self.holder[key as usize] = Some(place);
                }
            }
            3 if self.state[at] == State::Open => self.state[at] = State::Prepared,
            4 | 5 if which == 5 || self.state[at] != State::Spoiled => {
                for (holder, changed) in self.holder.iter_mut().zip(&mut self.changed) {
                    if *holder == Some(place) {
                        *holder = None;
                        *changed = if which == 4 { self.now } else { *changed };
                    }
                }
                self.state[at] = State::Idle;
            }
            _ => (),
        }
    }
}

/// So many calls of a kind.
pub fn stream(rng: &mut Rng, kind: &Kind, calls: usize) -> Vec<Bytes> {
    let mut mind = Foresight::of_a_fresh_board();
    let mut made = Vec::with_capacity(calls);
    while made.len() < calls {
        let value = if rng.percent(80) { rng.below(1_000) } else { rng.word() };
        let mut place = rng.below(kind.places);
        let mut key = rng.below(kind.keys);
        let which = if rng.percent(kind.wild) {
            if rng.percent(30) {
                place = rng.pick(&[16, 17, 128, 255]);
            }
            if rng.percent(30) {
                key = rng.pick(&[255, 256, 257, 300, 65_535]);
            }
            rng.below(6) as usize
        } else {
            let stays = place >= kind.places - kind.staying;
            match mind.state[place as usize] {
                State::Idle => 0,
                State::Spoiled if rng.percent(kind.gives_up) => 5,
                State::Prepared if rng.percent(30) => rng.pick(&[4, 4, 5]),
                State::Prepared if rng.percent(70) => continue,
                State::Open if stays && rng.below(200) > 0 => 1,
                State::Open if stays => rng.pick(&[4, 5]),
                _ => 1 + rng.weighted(&kind.weights),
            }
        };
        if place < PLACES && key < KEYS {
            mind.take(which, place, key);
        }
        made.push(bytes(call(which, place, key, value)));
    }
    made
}

/// Fills the 1,024 cells of the desk's board with four versions of each key, each but the newest kept by a view that
/// stays open, meets FULL, then closes the views one by one and writes again. Updates of this kind are dear.
pub fn filled(rng: &mut Rng) -> Vec<Bytes> {
    const WRITER: u32 = 15;
    let mut calls = Vec::new();
    for reader in 0..4 {
        calls.push(Call::Start { place: WRITER });
        // by key up or down, so that cells of one key are not always in the same order
        let down = rng.percent(50);
        calls.extend((0..KEYS).map(|k| if down { KEYS - 1 - k } else { k }).map(|key| Call::Update {
            place: WRITER,
            key,
            value: rng.word(),
        }));
        calls.push(Call::Commit { place: WRITER });
        calls.push(Call::Start { place: reader });
    }
    for close in [None, Some(1), Some(0), Some(2), Some(3)] {
        if let Some(place) = close {
            calls.push(if rng.percent(50) { Call::Commit { place } } else { Call::Rollback { place } });
        }
        calls.push(Call::Start { place: WRITER });
        for _ in 0..if close.is_none() { 12 } else { 4 } {
            let (place, key, value) = (WRITER, rng.below(KEYS), rng.word());
            calls.push(Call::Update { place, key, value });
            calls.extend((0..5).map(|place| Call::Read { place, key }));
        }
        calls.push(if rng.percent(50) { Call::Commit { place: WRITER } } else { Call::Rollback { place: WRITER } });
    }
    calls.into_iter().map(bytes).collect()
}

/// What a desk over this store's `serve` writes: all at once on a fresh board of 1,024 cells, and RECORD for a cut record.
fn at_once(store: &dyn Store, input: &[u8]) -> Vec<u8> {
    let ((taken, written, why), mut answers, ..) = on_the_desks_board(input).play(store);
    answers.truncate(written as usize);
    if why == twin::words::END && taken < input.len() as u64 {
        answers.extend(RECORD);
    }
    answers
}

/// These bytes for `serve`, on the board that the desk begins with and with room for every answer.
fn on_the_desks_board(input: &[u8]) -> codecs::Case {
    let (record, cells) = fresh(MAX_CELLS);
    let room = input.len() / CALL_BYTES * ANSWER_BYTES;
    codecs::Case { record, cells, calls: input.to_vec(), room }
}

/// A stream on which two stores differ, made small.
fn difference(a: &dyn Store, b: &dyn Store, mut calls: Vec<Bytes>, what: &str) -> Difference {
    // without a start of the desk program for each try, unless the fault is its own
    let by_serve = at_once(a, &calls.concat()) != at_once(b, &calls.concat());
    let both = |calls: &[Bytes]| {
        [a, b].map(|store| if by_serve { at_once(store, &calls.concat()) } else { store.desk(&calls.concat()) })
    };
    let differ = |calls: &[Bytes]| {
        let [x, y] = both(calls);
        x != y
    };
    // nothing after the first answer that differs is needed
    let [x, y] = both(&calls);
    let first = x.iter().zip(&y).position(|(p, q)| p != q).unwrap_or(x.len().min(y.len())) / ANSWER_BYTES;
    let mut prefix = calls.clone();
    prefix.truncate(first + 1);
    if differ(&prefix) {
        calls = prefix;
    }
    // some streams are dear: what is found in half a minute has to do
    let begun = Instant::now();
    shrink::drop_parts(&mut calls, 1, &mut |calls| begun.elapsed() < Duration::from_secs(30) && differ(calls));
    bytes_difference(a, b, &calls.concat(), what)
}

fn bytes_difference(a: &dyn Store, b: &dyn Store, input: &[u8], what: &str) -> Difference {
    let list = |bytes: &[u8]| {
        bytes.chunks(CALL_BYTES).map(|c| format!("        {c:?},\n")).collect::<String>().replace(['[', ']'], "")
    };
    Difference(format!(
        "{} and {} differ on a stream ({what}):\n// {}: {:?}\n// {}: {:?}\n#[test]\nfn found() {{\n    \
         compare::same_desk(&[\n{}    ]);\n}}\n",
        a.name(),
        b.name(),
        a.name(),
        a.desk(input),
        b.name(),
        b.desk(input),
        list(input)
    ))
}

/// Plays a stream on both desks; counts the answers by name.
pub fn one(a: &dyn Store, b: &dyn Store, calls: &[Bytes], what: &str, counts: &mut Counts) -> Result<(), Difference> {
    let input = calls.concat();
    let output = a.desk(&input);
    if output != b.desk(&input) {
        return Err(difference(a, b, calls.to_vec(), what));
    }
    for at in (0..output.len()).step_by(ANSWER_BYTES) {
        counts.add(read_answer(&output, at).map_or("?", |reply| twin::name(reply.answer.number)));
    }
    Ok(())
}

/// Streams of every kind in turn, so many calls in all. Gives how often each answer was written.
pub fn compare(a: &dyn Store, b: &dyn Store, seed: u64, calls: u64, each: usize) -> Result<Counts, Difference> {
    let mut rng = Rng::new(seed);
    let mut counts = Counts::default();
    let mut progress = Progress::new("streams", calls);
    let mut done = 0;
    for kind in KINDS.iter().cycle() {
        progress.at(done);
        if done >= calls {
            break;
        }
        let stream = stream(&mut rng, kind, each);
        done += stream.len() as u64;
        one(a, b, &stream, kind.name, &mut counts)?;
    }
    progress.end(done);
    Ok(counts)
}

/// How many cases there were, and how often they made the desk program start.
pub struct Damaged {
    pub cases: u64,
    pub starts: u64,
}

/// A few short streams cut after every byte, and with every byte damaged, left out or put in.
///
/// Each case goes through `serve` on the desk's board, and answers, record and words are compared. The desk program is a loop
/// around the same `serve`: it reads, keeps what is left of a cut record, writes, and stops. It does not look into a record,
/// so what can go wrong in it hangs on lengths and on where the bytes are that are no call, not on which they are. So the
/// program gets, in one run for each stream, all the cases that are answered to their end, one behind the other; and of
/// those that make it stop, each a start of its own and a twentieth of a second under an emulator, one for each byte and
/// each kind of damage, from the streams in turn. The wrong loops of `loops` are caught by no more than that.
pub fn damaged(a: &dyn Store, b: &dyn Store, seed: u64, streams: usize) -> Result<Damaged, Difference> {
    let mut rng = Rng::new(seed);
    let mut done = Damaged { cases: 0, starts: 0 };
    let mut progress = Progress::new("damaged streams", streams as u64 * (81 + 80 * 10));
    let through_the_desk = |input: &[u8]| match a.desk(input) == b.desk(input) {
        true => Ok(()),
        false => Err(bytes_difference(a, b, input, "damaged")),
    };
    for n in 0..streams {
        let whole = stream(&mut rng, &KINDS[n % KINDS.len()], 8).concat();
        let mut answered = Vec::new();
        for at in 0..=whole.len() {
            let in_turn = at % KINDS.len() == n % KINDS.len();
            for kind in damage(&mut rng, &whole, at) {
                let mut starts = in_turn;
                for input in kind {
                    done.cases += 1;
                    on_the_desks_board(&input).compare(a, b)?;
                    if is_answered(&input) {
                        answered.extend(input);
                        answered.extend((0..PLACES).flat_map(|place| bytes(Call::Rollback { place })));
                    } else if starts {
                        starts = false;
                        done.starts += 1;
                        through_the_desk(&input)?;
                    }
                }
            }
            progress.at(done.cases);
        }
        done.starts += 1;
        through_the_desk(&answered)?;
    }
    progress.end(done.cases);
    Ok(done)
}

/// What is made of a stream at one byte, by kinds of damage: cut before it; another byte for it; without it; with one more.
fn damage(rng: &mut Rng, whole: &[u8], at: usize) -> Vec<Vec<Vec<u8>>> {
    let mut kinds = vec![vec![whole[..at].to_vec()]];
    if let Some(&old) = whole.get(at) {
        let others = [0, 1, 6, 7, 0xFF, old ^ 1, old ^ 0x80, rng.below(256) as u8];
        kinds.push(others.iter().map(|&byte| with_byte(whole, at, byte)).collect());
        let mut less = whole.to_vec();
        less.remove(at);
        let mut more = whole.to_vec();
        more.insert(at, rng.pick(&[0, 0x43, 0x4C, old]));
        kinds.extend([vec![less], vec![more]]);
    }
    kinds
}

fn with_byte(whole: &[u8], at: usize, byte: u8) -> Vec<u8> {
    let mut bytes = whole.to_vec();
    bytes[at] = byte;
    bytes
}

/// Whether these are whole calls, so that a desk answers them all and would read on.
fn is_answered(input: &[u8]) -> bool {
    input.len().is_multiple_of(CALL_BYTES)
        && (0..input.len()).step_by(CALL_BYTES).all(|at| read_call(input, at).is_some())
}

/// Streams longer than what the desk reads at once, from a file, so that each read fills its buffer and a record may be
/// cut between two reads: whole; cut at the end; with bytes that are no call before such a cut, at it, behind it and far
/// behind it. Gives how many they were.
pub fn long(a: &dyn Store, b: &dyn Store, seed: u64) -> Result<u64, Difference> {
    let mut whole = stream(&mut Rng::new(seed), &KINDS[0], LONG / CALL_BYTES).concat();
    let mut inputs = vec![whole.clone()];
    inputs.extend([1, 5, 9].map(|less| whole[..LONG - less].to_vec()));
    for at in [READ - 16, READ - 6, READ - 1, READ, READ + 3, READ + 4, 100_000, 2 * READ - 7, 2 * READ - 6, LONG - 10]
    {
        // within a start, which is no call with any other byte but its place
        whole[at / CALL_BYTES * CALL_BYTES..][..CALL_BYTES].copy_from_slice(&bytes(Call::Start { place: 0 }));
        inputs.push(with_byte(&whole, at, !whole[at]));
    }
    let cases = inputs.len() as u64;
    for input in inputs {
        let (x, y) = (a.desk_on_file(&input), b.desk_on_file(&input));
        if x != y {
            let first = x.iter().zip(&y).position(|(p, q)| p != q).unwrap_or(x.len().min(y.len()));
            return Err(Difference(format!(
                "{} and {} differ on {} bytes of input from a file (seed {seed:#x}), first in byte {first} of {} and {}",
                a.name(),
                b.name(),
                input.len(),
                x.len(),
                y.len()
            )));
        }
    }
    Ok(cases)
}

/// A console that waits: sends a part, reads every answer that is due, and sends the next part.
fn conversation<'a>(parts: impl Iterator<Item = &'a [u8]>) -> Vec<u8> {
    let mut desk = desk_program();
    let mut to = desk.stdin.take().expect("piped");
    let mut from = desk.stdout.take().expect("piped");
    let (send, answers) = mpsc::channel();
    let reader = std::thread::spawn(move || {
        let mut answer = [0; ANSWER_BYTES];
        while from.read_exact(&mut answer).is_ok() {
            send.send(answer).expect("the console waits");
        }
    });
    let (mut sent, mut output) = (0, Vec::new());
    for part in parts {
        to.write_all(part).expect("the desk reads");
        sent += part.len();
        while output.len() < sent / CALL_BYTES * ANSWER_BYTES {
            // no measure of speed: without it a desk that waits for more input would hold up the tests for ever
            let answer = answers.recv_timeout(Duration::from_secs(300)).expect("an answer before more is sent");
            output.extend(answer);
        }
        std::thread::sleep(Duration::from_micros(50));
    }
    drop(to);
    output.extend(answers.iter().flatten());
    reader.join().expect("the reader ends");
    assert!(desk.wait().expect("the desk ends").success());
    output
}

/// Each call sent in two parts, and its answer read before the next is sent.
pub fn waiting(b: &dyn Store, seed: u64, calls: usize) {
    let mut rng = Rng::new(seed);
    let stream = stream(&mut rng, &KINDS[0], calls);
    let parts = stream.iter().flat_map(|call| <[&[u8]; 2]>::from(call.split_at(rng.below(CALL_BYTES as u32) as usize)));
    assert!(conversation(parts) == b.desk(&stream.concat()), "a console that waits gets other answers");
}

/// A long stream in parts of any length, each answered before the next is sent, with a cut record at its end: every part
/// but a few ends within a record, and what comes of that record is kept for the next read.
pub fn in_parts(b: &dyn Store, seed: u64) {
    let mut rng = Rng::new(seed);
    let mut whole = stream(&mut rng, &KINDS[1], LONG / CALL_BYTES).concat();
    whole.truncate(LONG - 3);
    let (mut parts, mut rest) = (Vec::new(), &whole[..]);
    while !rest.is_empty() {
        let most = rng.pick(&[9, 100, 5_000, READ as u32 + 100]);
        let (part, behind) = rest.split_at(rest.len().min(rng.from_to(1, most) as usize));
        parts.push(part);
        rest = behind;
    }
    assert!(conversation(parts.into_iter()) == b.desk(&whole), "a console that sends parts gets other answers");
}

/// Streams on small boards through `lane_serve`, in pieces of any length with any room for answers: what each piece
/// gives back, its answers, the record and the words are the same. Gives how often each answer was written.
pub fn pieces(a: &dyn Store, b: &dyn Store, seed: u64, calls: u64) -> Result<Counts, Difference> {
    let mut rng = Rng::new(seed);
    let mut counts = Counts::default();
    let mut progress = Progress::new("streams in pieces", calls);
    let mut done = 0;
    while done < calls {
        progress.at(done);
        let kind = rng.pick(&KINDS);
        let cells = rng.pick(&[1, 2, 3, 5, 8, 16, 40]);
        let mut input = stream(&mut rng, &kind, 400).concat();
        if rng.percent(30) {
            let at = rng.below(input.len() as u32) as usize;
            input[at] = rng.word() as u8;
        }
        done += 400;
        let (mut record, mut words) = fresh(cells);
        let (mut at, mut given) = (0, 0);
        loop {
            // a little more is given each time; what was not taken is given again
            given = input.len().min(given + rng.below(120) as usize);
            let room = rng.below(100) as usize;
            let case = codecs::Case { record, cells: words, calls: input[at..given].to_vec(), room };
            case.compare(a, b)?;
            let ((taken, written, why), answers, left, cells_left) = case.play(a);
            for answer in (0..written as usize).step_by(ANSWER_BYTES) {
                counts.add(read_answer(&answers, answer).map_or("?", |reply| twin::name(reply.answer.number)));
            }
            (record, words) = (left, cells_left);
            at += taken as usize;
            if why == 1 || (given == input.len() && input.len() - at < CALL_BYTES) {
                break;
            }
        }
    }
    progress.end(done);
    Ok(counts)
}
