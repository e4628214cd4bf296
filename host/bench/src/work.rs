//! The workloads, the same for every peer: a workload draws its keys from a generator with a fixed seed.

use crate::peers::Peer;

pub use lane::KEYS;
pub const PLACES: usize = lane::PLACES as usize;

/// A tiny generator of numbers (xorshift), so that every peer gets the same keys.
pub struct Rng(u64);

impl Rng {
    pub fn new() -> Rng {
        Rng(0x1A2E_B0A2_D001)
    }

    pub fn word(&mut self) -> u32 {
        self.0 ^= self.0 << 13;
        self.0 ^= self.0 >> 7;
        self.0 ^= self.0 << 17;
        (self.0 >> 32) as u32
    }

    pub fn key(&mut self) -> u32 {
        self.word() % KEYS
    }
}

/// Every key written once and committed, at place 0.
pub fn write_every_key(peer: &mut dyn Peer) {
    for key in 0..KEYS {
        peer.start(0);
        assert!(peer.update(0, key, key + 1), "no one else writes");
        peer.commit(0);
    }
}

/// A workload goes on from where it stood, so many transactions at a time.
pub trait Work {
    /// Gives a sum over all that was read and refused, the same for every peer that reads and refuses the same.
    fn run(&mut self, peer: &mut dyn Peer, transactions: u64) -> u64;
}

/// W1, one place: start, read a random key of 256, update a random key, commit.
pub struct One(pub Rng);

impl Work for One {
    fn run(&mut self, peer: &mut dyn Peer, transactions: u64) -> u64 {
        let mut sum = 0;
        for _ in 0..transactions {
            peer.start(0);
            sum = mix(sum, peer.read(0, self.0.key()));
            let (key, value) = (self.0.key(), self.0.word());
            assert!(peer.update(0, key, value), "no one else writes");
            peer.commit(0);
        }
        sum
    }
}

/// W2, sixteen places in turn on shared keys: each turn is one call, start, read, update or commit; a conflict is
/// rolled back in the same turn. The places stand at different calls, as consoles do.
pub struct Sixteen {
    rng: Rng,
    /// The next call of each place: 0 start, 1 read, 2 update, 3 commit.
    next: [u8; PLACES],
    turn: usize,
    pub conflicts: u64,
    pub transactions: u64,
}

impl Sixteen {
    pub fn new() -> Sixteen {
        Sixteen { rng: Rng::new(), next: [0; PLACES], turn: 0, conflicts: 0, transactions: 0 }
    }
}

impl Work for Sixteen {
    fn run(&mut self, peer: &mut dyn Peer, transactions: u64) -> u64 {
        let mut sum = 0;
        let mut ended = 0;
        while ended < transactions {
            // the first round is staggered by four turns, so that starts and commits are mixed from then on
            let place = self.turn % PLACES;
            let waits = self.turn / PLACES < place % 4;
            self.turn += 1;
            if waits {
                continue;
            }
            let at = place as u32;
            self.next[place] = match self.next[place] {
                0 => {
                    peer.start(at);
                    1
                }
                1 => {
                    sum = mix(sum, peer.read(at, self.rng.key()));
                    2
                }
                2 => {
                    let (key, value) = (self.rng.key(), self.rng.word());
                    if peer.update(at, key, value) {
                        3
                    } else {
                        peer.rollback(at);
                        sum = mix(sum, 1);
                        self.conflicts += 1;
                        ended += 1;
                        0
                    }
                }
                _ => {
                    peer.commit(at);
                    ended += 1;
                    0
                }
            };
        }
        self.transactions += ended;
        sum
    }
}

/// W3, reads alone with sixteen open views: four versions of every key fill the 1,024 cells, and the views stand
/// between them.
pub fn open_sixteen_views(peer: &mut dyn Peer) {
    for version in 0..4 {
        peer.start(15);
        for key in 0..KEYS {
            assert!(peer.update(15, key, 1_000 * version + key), "no one else writes");
        }
        peer.commit(15);
        for place in 5 * version..(5 * version + 5).min(PLACES as u32) {
            peer.start(place);
        }
    }
}

pub struct Reads(pub Rng);

impl Work for Reads {
    fn run(&mut self, peer: &mut dyn Peer, reads: u64) -> u64 {
        let mut sum = 0;
        for _ in 0..reads {
            let place = self.0.word() % PLACES as u32;
            sum = mix(sum, peer.read(place, self.0.key()));
        }
        sum
    }
}

fn mix(sum: u64, word: u32) -> u64 {
    (sum ^ u64::from(word)).wrapping_mul(0x0000_0100_0000_01B3).rotate_left(5)
}
