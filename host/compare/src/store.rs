//! The boards that are compared, behind one face: the proved one, the twin, and the twin with a shortcut planted.

use crate::program;
use std::fs::File;
use std::io::{Read, Write};
use std::process::{Child, Command, Stdio};
use std::sync::atomic::{AtomicU32, Ordering};

/// Bytes taken, bytes written, why it stopped.
pub type Served = (u64, u64, u32);

/// One board behind the C interface's numbers, and its desk program.
pub trait Store: Sync {
    fn name(&self) -> &'static str;
    /// Number and value of one call: kind, place, key, value.
    fn call(&self, record: &mut [u32], cells: &mut [u32], numbers: [u32; 4]) -> (u32, u32);
    fn serve(&self, record: &mut [u32], cells: &mut [u32], calls: &[u8], answers: &mut [u8]) -> Served;
    fn desk(&self, input: &[u8]) -> Vec<u8>;
    /// The same with the input in a file, where each read gets as many bytes as it has room for.
    fn desk_on_file(&self, input: &[u8]) -> Vec<u8> {
        self.desk(input)
    }
}

/// The proved board: `lane_call` and `lane_serve` of the static library, and the desk program.
pub struct Proved;

impl Store for Proved {
    fn name(&self) -> &'static str {
        "proved"
    }

    fn call(&self, record: &mut [u32], cells: &mut [u32], [kind, place, key, value]: [u32; 4]) -> (u32, u32) {
        let both = lane::words::call_number(record, cells, kind, place, key, value);
        ((both >> 32) as u32, both as u32)
    }

    fn serve(&self, record: &mut [u32], cells: &mut [u32], calls: &[u8], answers: &mut [u8]) -> Served {
        let served = lane::words::serve(record, cells, calls, answers);
        (served.taken as u64, served.written as u64, served.why as u32)
    }

    fn desk(&self, input: &[u8]) -> Vec<u8> {
        let mut desk = desk_program();
        let mut to = desk.stdin.take().expect("piped");
        std::thread::scope(|scope| {
            // The desk may stop early, and then reads no further: a broken pipe is no failure.
            scope.spawn(move || to.write_all(input).unwrap_or(()));
            written_by(desk)
        })
    }

    fn desk_on_file(&self, input: &[u8]) -> Vec<u8> {
        written_by(start(program::desk().stdin(kept(input)).stdout(Stdio::piped())))
    }
}

/// The proved desk program, started with both ends piped.
pub fn desk_program() -> Child {
    start(program::desk().stdin(Stdio::piped()).stdout(Stdio::piped()))
}

pub fn start(desk: &mut Command) -> Child {
    desk.spawn().unwrap_or_else(|e| panic!("{}: {e}", program::MISSING))
}

/// All that a desk writes until it ends.
fn written_by(mut desk: Child) -> Vec<u8> {
    let mut output = Vec::new();
    desk.stdout.take().expect("piped").read_to_end(&mut output).expect("the desk's output");
    let status = desk.wait().expect("the desk program ends");
    assert!(status.success(), "the desk program ended with {status}");
    output
}

/// A file that holds these bytes and has no name any more, to be read from its start.
fn kept(bytes: &[u8]) -> File {
    static COUNT: AtomicU32 = AtomicU32::new(0);
    let name = format!("lane-{}-{}", std::process::id(), COUNT.fetch_add(1, Ordering::Relaxed));
    let path = std::env::temp_dir().join(name);
    std::fs::write(&path, bytes).expect("a file for the desk's input");
    let file = File::open(&path).expect("a file for the desk's input");
    std::fs::remove_file(&path).expect("a file of our own");
    file
}

/// The second implementation of document 01.
pub struct Twin;

impl Store for Twin {
    fn name(&self) -> &'static str {
        "twin"
    }

    fn call(&self, record: &mut [u32], cells: &mut [u32], [kind, place, key, value]: [u32; 4]) -> (u32, u32) {
        let answer = twin::words::call(record, cells, kind, place, key, value);
        (answer.number, answer.value)
    }

    fn serve(&self, record: &mut [u32], cells: &mut [u32], calls: &[u8], answers: &mut [u8]) -> Served {
        let served = twin::words::serve(record, cells, calls, answers);
        (served.taken, served.written, served.why)
    }

    fn desk(&self, input: &[u8]) -> Vec<u8> {
        twin::desk(input)
    }
}

type CallFn = fn(&mut [u32], &mut [u32], [u32; 4]) -> (u32, u32);
type ServeFn = fn(&mut [u32], &mut [u32], &[u8], &mut [u8]) -> Served;

/// A copy of the twin with something wrong planted in it (see build.rs).
pub struct Planted {
    name: &'static str,
    call: CallFn,
    serve: ServeFn,
    desk: fn(&[u8]) -> Vec<u8>,
}

impl Store for Planted {
    fn name(&self) -> &'static str {
        self.name
    }

    fn call(&self, record: &mut [u32], cells: &mut [u32], numbers: [u32; 4]) -> (u32, u32) {
        (self.call)(record, cells, numbers)
    }

    fn serve(&self, record: &mut [u32], cells: &mut [u32], calls: &[u8], answers: &mut [u8]) -> Served {
        (self.serve)(record, cells, calls, answers)
    }

    fn desk(&self, input: &[u8]) -> Vec<u8> {
        (self.desk)(input)
    }
}

/// The copies: `SHORTCUTS`, "Four shortcuts that free or block the wrong segment", and `MISREADINGS` of other sentences.
mod planted {
    use super::Planted;

    macro_rules! planted {
        ($copy:ident) => {
            Planted {
                name: stringify!($copy),
                call: |record, cells, [kind, place, key, value]| {
                    let answer = $copy::words::call(record, cells, kind, place, key, value);
                    (answer.number, answer.value)
                },
                serve: |record, cells, calls, answers| {
                    let served = $copy::words::serve(record, cells, calls, answers);
                    (served.taken, served.written, served.why)
                },
                desk: $copy::desk::desk,
            }
        };
    }

    include!(concat!(env!("OUT_DIR"), "/planted.rs"));
}

#[cfg(feature = "misreadings")]
pub use planted::MISREADINGS;
pub use planted::SHORTCUTS;
