//! `./lane bench`: the proved board against the twin and WiredTiger, all in one run, as one table with ratios.
//!
//! Every peer of a workload first does the same short piece of it, and what it read and refused is compared. Then they
//! are measured in turn, many times over, by the processor time of the one thread that works, and the best of each
//! counts, so that a busy machine disturbs little and all alike. For the desk program it is its process's time.
//! Under an emulator, which host/x86.sh names in LANE_EMULATOR, all is run and compared, but no time says anything.

use lane::layout::CELL_WORDS;
use lane::{Call, ANSWER_BYTES, CALL_BYTES, MAX_CELLS};
use peers::{Peer, Proved, Twin};
use program::emulator;
use std::hint::black_box;
use std::io::{Read, Write};
use std::process::Stdio;
use std::time::Duration;
use work::{One, Reads, Rng, Sixteen, Work};

mod peers;
#[path = "../../compare/src/program.rs"]
mod program;
mod work;

/// How often each peer is measured, and for how long at least: many short measurements, since some of them will fall into
/// a moment in which nothing else runs.
const PASSES: usize = 25;
const LONG: Duration = Duration::from_millis(60);

/// WiredTiger with its isolation named once for a session, and with it named again at each start, which is slower.
const WIRED: &str = "WiredTiger";
const WIRED_EACH: &str = "WiredTiger, named at each start";

/// A peer at work, with the best rate measured so far.
struct Runner {
    name: &'static str,
    run: Box<dyn FnMut(u64) -> u64>,
    best: f64,
}

impl Runner {
    fn new(name: &'static str, run: impl FnMut(u64) -> u64 + 'static) -> Runner {
        Runner { name, run: Box::new(run), best: 0.0 }
    }

    /// One measurement: as many as fit in `LONG`, asked for in growing pieces.
    fn measure(&mut self) {
        let (mut done, mut piece) = (0, 16);
        let begun = own_time();
        let took = loop {
            black_box((self.run)(piece));
            done += piece;
            piece = (piece * 2).min(1_024);
            let took = own_time() - begun;
            if took >= LONG {
                break took;
            }
        };
        self.best = self.best.max(done as f64 / took.as_secs_f64());
    }
}

/// The processor time that this thread has used.
fn own_time() -> Duration {
    used(1)
}

/// The processor time that child processes which have ended used: the desk program's.
fn desk_time() -> Duration {
    used(-1)
}

/// User and system time by `getrusage`: of this thread (1) or of the children (-1).
fn used(who: i32) -> Duration {
    /// `struct rusage` of 64-bit Linux: two times in seconds and microseconds, and fourteen numbers not used here.
    #[repr(C)]
    #[derive(Default)]
    struct Usage {
        times: [i64; 4],
        others: [i64; 14],
    }
    extern "C" {
        fn getrusage(who: i32, usage: *mut Usage) -> i32;
    }
    let mut usage = Usage::default();
    // SAFETY: a whole `struct rusage`, lent for the call.
    assert_eq!(unsafe { getrusage(who, &mut usage) }, 0, "getrusage");
    let [user, user_micros, system, system_micros] = usage.times.map(|n| n as u64);
    Duration::from_secs(user + system) + Duration::from_micros(user_micros + system_micros)
}

/// The first peer's sum over a short piece must be every peer's; then all are measured in turn.
fn race(what: &str, runners: &mut [Runner]) {
    agree(what, runners);
    measure(what, runners, &mut []);
}

fn agree(what: &str, runners: &mut [Runner]) {
    let sums: Vec<u64> = runners.iter_mut().map(|r| (r.run)(2_000)).collect();
    for (runner, sum) in runners.iter().zip(&sums) {
        assert_eq!(*sum, sums[0], "{what}: {} reads or refuses something else than {}", runner.name, runners[0].name);
    }
}

/// Measures these and those in turn: what a ratio is taken of must be measured side by side.
fn measure(what: &str, these: &mut [Runner], those: &mut [Runner]) {
    eprintln!("measuring {what} ..");
    for _ in 0..PASSES {
        these.iter_mut().chain(those.iter_mut()).for_each(Runner::measure);
    }
}

fn runner(name: &'static str, mut peer: impl Peer + 'static, mut work: impl Work + 'static) -> Runner {
    Runner::new(name, move |n| work.run(&mut peer, n))
}

/// The peers of W1 and W2, each with every key written before.
fn written(work: impl Fn() -> Box<dyn Work>) -> Vec<Runner> {
    let here: [(&'static str, Box<dyn Peer>); 2] = [("lane", Box::new(proved())), ("twin", Box::new(twin()))];
    let wired = [(WIRED, wired(false)), (WIRED_EACH, wired(true))];
    let wired = wired.into_iter().filter_map(|(name, peer)| peer.map(|peer| (name, peer)));
    let peers = here.into_iter().chain(wired);
    let ready = |(name, mut peer): (&'static str, Box<dyn Peer>)| {
        work::write_every_key(&mut *peer);
        let mut work = work();
        Runner::new(name, move |n| work.run(&mut *peer, n))
    };
    peers.map(ready).collect()
}

/// WiredTiger, where the bench was built with it.
#[cfg(wiredtiger)]
fn wired(at_each_start: bool) -> Option<Box<dyn Peer>> {
    let wired = peers::wired::Wired::open(at_each_start);
    if wired.is_none() {
        eprintln!("WiredTiger is installed but did not open");
    }
    wired.map(|wired| Box::new(wired) as Box<dyn Peer>)
}

#[cfg(not(wiredtiger))]
fn wired(_: bool) -> Option<Box<dyn Peer>> {
    None
}

fn proved() -> Proved {
    Proved(lane::Board::new(MAX_CELLS).expect("as many cells as a board can have"))
}

fn twin() -> Twin {
    Twin(twin::Board::fresh(MAX_CELLS))
}

/// W1 as call records: every key written, then so many transactions.
fn stream(transactions: u64) -> Vec<u8> {
    struct Records(Vec<u8>);
    impl Records {
        fn put(&mut self, call: Call) {
            let [kind, place, key, value] = call.numbers();
            self.0.extend([0x43, 0x4C, kind as u8, place as u8, key as u8, 0]);
            self.0.extend(value.to_le_bytes());
        }
    }
    impl Peer for Records {
        fn start(&mut self, place: u32) {
            self.put(Call::Start { place });
        }
        fn read(&mut self, place: u32, key: u32) -> u32 {
            self.put(Call::Read { place, key });
            0
        }
        fn update(&mut self, place: u32, key: u32, value: u32) -> bool {
            self.put(Call::Update { place, key, value });
            true
        }
        fn commit(&mut self, place: u32) {
            self.put(Call::Commit { place });
        }
        fn rollback(&mut self, place: u32) {
            self.put(Call::Rollback { place });
        }
    }
    let mut records = Records(Vec::new());
    work::write_every_key(&mut records);
    One(Rng::new()).run(&mut records, transactions);
    records.0
}

/// What the desk program writes for this input.
fn desk(input: &[u8]) -> Result<Vec<u8>, String> {
    let missing = |e| format!("{}: {e}", program::MISSING);
    let mut desk = program::desk().stdin(Stdio::piped()).stdout(Stdio::piped()).spawn().map_err(missing)?;
    let (mut to, mut from) = (desk.stdin.take().expect("piped"), desk.stdout.take().expect("piped"));
    let mut output = Vec::new();
    let read = std::thread::scope(|scope| {
        scope.spawn(move || to.write_all(input));
        from.read_to_end(&mut output)
    });
    read.map_err(|e| format!("the desk's output: {e}"))?;
    desk.wait().map_err(|e| format!("the desk: {e}"))?;
    Ok(output)
}

/// Calls per second of one way to answer the stream, by this clock; the output must be the expected one.
fn rate(input: &[u8], expected: &[u8], clock: fn() -> Duration, run: impl Fn(&[u8]) -> Vec<u8>) -> f64 {
    let mut best = 0f64;
    for _ in 0..3 {
        let begun = clock();
        let output = run(input);
        best = best.max((input.len() / CALL_BYTES) as f64 / (clock() - begun).as_secs_f64());
        assert!(output == expected, "on W1's stream two of the desks write different bytes");
    }
    best
}

/// One plain pass: every word is looked at once. A sum, which the compiler takes several words at a time ..
fn pass(words: &[u32]) -> u32 {
    words.iter().fold(0, |sum: u32, &word| sum.wrapping_add(word))
}

/// .. and a search for a word that is not there, which could stop at each.
fn pass_that_could_stop(words: &[u32]) -> u32 {
    words.iter().position(|&word| word == u32::MAX).map_or(0, |_| 1)
}

fn thousands(n: f64) -> String {
    let digits = format!("{n:.0}");
    let mut out = String::new();
    for (i, digit) in digits.chars().enumerate() {
        if i > 0 && (digits.len() - i).is_multiple_of(3) {
            out.push(',');
        }
        out.push(digit);
    }
    out
}

/// A line of the table: lane, twin, and WiredTiger in its two ways.
struct Row {
    what: &'static str,
    unit: &'static str,
    rates: [Option<f64>; 4],
}

fn row(what: &'static str, unit: &'static str, runners: &[Runner]) -> Row {
    Row { what, unit, rates: ["lane", "twin", WIRED, WIRED_EACH].map(|name| best(runners, name)) }
}

fn best(runners: &[Runner], name: &str) -> Option<f64> {
    runners.iter().find(|r| r.name == name).map(|r| r.best)
}

fn print(rows: &[Row]) {
    let cell = |rate: Option<f64>| rate.map_or("-".into(), thousands);
    let line = |a: &str, b: &str, rest: [String; 7]| {
        let numbers: String = rest.iter().map(|n| format!(" {n:>11}")).collect();
        println!("{a:<48} {b:<12}{numbers}");
    };
    let heads = ["lane", "twin", "WiredTiger", "WT, each", "lane/twin", "lane/WT", "lane/each"];
    line(if emulator().is_some() { "UNDER AN EMULATOR" } else { "" }, "a second", heads.map(String::from));
    for Row { what, unit, rates } in rows {
        let ratio = |i: usize| match (rates[0], rates[i]) {
            (Some(a), Some(b)) => format!("{:.3}", a / b),
            _ => "-".into(),
        };
        let [lane, twin, wired, each] = rates.map(cell);
        line(what, unit, [lane, twin, wired, each, ratio(1), ratio(2), ratio(3)]);
    }
}

fn goal(what: &str, met: Option<bool>, measured: String) {
    if emulator().is_some() {
        return println!("  {what}: not measured, under an emulator");
    }
    let verdict = match met {
        Some(true) => "met",
        Some(false) => "not met",
        None => "not measured",
    };
    println!("  {what}: {verdict}{measured}");
}

/// W3 on the proved board and the twin, and the two plain passes over the same words, measured side by side.
fn reads_and_passes() -> ([Runner; 2], [Runner; 2]) {
    let (mut a, mut b) = (proved(), twin());
    work::open_sixteen_views(&mut a);
    work::open_sixteen_views(&mut b);
    let words = a.0.cell_words().to_vec();
    assert!(words == b.0.cells, "lane and twin fill the cells differently");
    assert!(words.chunks(CELL_WORDS).all(|cell| cell[0] != 0), "every cell is filled");
    let again = words.clone();
    let mut w3 = [runner("lane", a, Reads(Rng::new())), runner("twin", b, Reads(Rng::new()))];
    agree("W3", &mut w3);
    let passes = |words: Vec<u32>, pass: fn(&[u32]) -> u32| {
        move |n| (0..n).fold(0, |sum: u64, _| sum.wrapping_add(u64::from(pass(black_box(&words)))))
    };
    let mut plain =
        [Runner::new("pass", passes(words, pass)), Runner::new("search", passes(again, pass_that_could_stop))];
    measure("W3 and the plain pass", &mut w3, &mut plain);
    (w3, plain)
}

/// Calls a second on W1's stream.
struct StreamRates {
    desk: f64,
    serve: f64,
    twin: f64,
}

/// W1's stream through the desk program, through `lane_serve` and through the twin. `w1` tells how fast the boards are.
fn stream_rates(w1: &[Runner]) -> StreamRates {
    eprintln!("measuring the desk program ..");
    let through_desk = |input: &[u8]| desk(input).unwrap_or_else(|e| panic!("{e}"));
    let through_serve = |input: &[u8]| {
        let mut answers = vec![0; input.len() / CALL_BYTES * ANSWER_BYTES];
        proved().0.serve(input, &mut answers);
        answers
    };
    // a stream that keeps the twin busy for about a second, and one that keeps the proved board busy for as long
    let short = stream((w1[1].best as u64).clamp(1_000, 400_000));
    let long = stream((w1[0].best as u64).clamp(1_000, 400_000));
    let twin = rate(&short, &through_desk(&short), own_time, twin::desk);
    let expected = through_serve(&long);
    let desk = rate(&long, &expected, desk_time, through_desk);
    let serve = rate(&long, &expected, own_time, through_serve);
    StreamRates { desk, serve, twin }
}

/// The goals of W1 and W2, whose rows these are.
fn goals_against_wired(rows: &[Row]) {
    for row in rows {
        let ratio = |i: usize| row.rates[i].and_then(|wired| row.rates[0].map(|lane| lane / wired));
        let measured = match (ratio(2), ratio(3)) {
            (Some(once), Some(each)) => {
                format!(", {once:.2} times as fast ({each:.2} where it names its isolation each time)")
            }
            _ => String::new(),
        };
        goal(&format!("{} at least as fast as WiredTiger", &row.what[..2]), ratio(2).map(|r| r >= 1.0), measured);
    }
}

/// The goal of W3.
fn goal_against_the_plain_pass(w3: &[Runner; 2], plain: &[Runner; 2]) {
    let [read, pass, search] = [w3[0].best, plain[0].best, plain[1].best];
    let measured = format!(", {:.2} sums long ({:.2} searches)", pass / read, search / read);
    goal("W3 a read at most twice the plain pass", Some(pass / read <= 2.0), measured);
}

fn main() {
    if let Some(emulator) = emulator() {
        println!("Under an emulator, {}: no time below says anything about a processor.", emulator.display());
    }
    let mut w1 = written(|| Box::new(One(Rng::new())));
    race("W1", &mut w1);
    let mut w2 = written(|| Box::new(Sixteen::new()));
    race("W2", &mut w2);
    let (w3, plain) = reads_and_passes();
    let StreamRates { desk, serve, twin } = stream_rates(&w1);

    let alone = |what, unit, lane, twin| Row { what, unit, rates: [Some(lane), twin, None, None] };
    let rows = [
        row("W1: one place; start, read, update, commit", "transactions", &w1),
        row("W2: sixteen places in turn on shared keys", "transactions", &w2),
        row("W3: reads alone, sixteen open views, 1,024 cells", "reads", &w3),
        alone("   plain pass over the same 4,096 words: a sum", "passes", plain[0].best, None),
        alone("   plain pass: a search for a word not there", "passes", plain[1].best, None),
        alone("W1's stream through the desk program", "calls", desk, Some(twin)),
        alone("W1's stream through lane_serve at once", "calls", serve, Some(twin)),
    ];
    println!("\nBy processor time, best of {PASSES}:\n");
    print(&rows);
    println!("\nWiredTiger names its isolation once for a session; \"each\": again at each start. Goals are held to the faster.\n\nGoals");
    goals_against_wired(&rows[..2]);
    goal_against_the_plain_pass(&w3, &plain);
    if rows[0].rates[2].is_none() {
        println!(
            "\nWiredTiger is not here. To measure against it: apt-get install libwiredtiger-dev:amd64, then ./lane bench"
        );
    }
}
