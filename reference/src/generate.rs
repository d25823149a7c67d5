//! Scripts and captures made from a seed. The maker runs the calls itself as it goes, so that it knows
//! right cookies and numbers, and can then damage them on purpose.

mod capture;
mod client;
mod compare;
mod line;
mod listener;
mod packet;
mod segment;

use crate::script::Session;
use crate::wire::LAST_TIME;
use line::Line;

pub use capture::{generate as capture, last_record, setup};
pub use client::generate as client;
pub use compare::{pair, room, setup as pair_setup, unusable_setup};
pub use listener::generate as listener;

/// Splitmix64: small, and the same everywhere.
struct Rng(u64);

impl Rng {
    fn next(&mut self) -> u64 {
        self.0 = self.0.wrapping_add(0x9e37_79b9_7f4a_7c15);
        let mut z = self.0;
        z = (z ^ z >> 30).wrapping_mul(0xbf58_476d_1ce4_e5b9);
        z = (z ^ z >> 27).wrapping_mul(0x94d0_49bb_1331_11eb);
        z ^ z >> 31
    }

    fn below(&mut self, bound: u64) -> u64 {
        self.next() % bound
    }

    fn index(&mut self, bound: usize) -> usize {
        self.below(bound as u64) as usize
    }

    fn within(&mut self, least: u64, most: u64) -> u64 {
        least + self.below(most - least + 1)
    }

    fn percent(&mut self, chance: u64) -> bool {
        self.below(100) < chance
    }

    fn pick<T: Clone>(&mut self, choices: &[T]) -> T {
        choices[self.index(choices.len())].clone()
    }

    fn bytes(&mut self, length: usize) -> Vec<u8> {
        (0..length).map(|_| self.next() as u8).collect()
    }

    /// One of the indices of `weights`, by weight.
    fn weighted(&mut self, weights: &[u64]) -> usize {
        let mut left = self.below(weights.iter().sum());
        for (index, &weight) in weights.iter().enumerate() {
            if left < weight {
                return index;
            }
            left -= weight;
        }
        unreachable!("left is below the sum of the weights")
    }

    /// A time that is refused: before the clock, or past the last one.
    fn bad_time(&mut self, clock: u64) -> u64 {
        let late = self.pick(&[LAST_TIME + 1, LAST_TIME + 2, 1 << 49, u64::MAX - 1, u64::MAX]);
        match clock {
            0 => late,
            _ => self.pick(&[clock - 1, clock - 1, 0, clock / 2, late]),
        }
    }

    /// A sequence number, often where the count wraps.
    fn sequence(&mut self) -> u32 {
        match self.below(6) {
            0 => self.within(0, 3) as u32,
            1 => u32::MAX - self.below(4) as u32,
            2 => u32::MAX - self.below(3000) as u32,
            3 => 1000,
            _ => self.next() as u32,
        }
    }

    /// Mostly short, sometimes around a full segment.
    fn payload(&mut self) -> Vec<u8> {
        let length = match self.below(40) {
            0 => self.pick(&[1439, 1440, 1441, 1459, 1460, 1461, 1484]),
            1 => self.within(100, 1400),
            2..=10 => 0,
            11..=14 => 1,
            _ => self.within(2, 60),
        };
        self.bytes(length as usize)
    }
}

/// The text so far, and the session that runs it.
struct Script<S> {
    rng: Rng,
    session: S,
    text: Vec<u8>,
    calls: usize,
}

impl<S: Session> Script<S> {
    fn new(seed: u64, session: S) -> Script<S> {
        Script { rng: Rng(seed), session, text: Vec::new(), calls: 0 }
    }

    fn raw(&mut self, line: &[u8]) -> Option<String> {
        self.text.extend_from_slice(line);
        self.text.push(b'\n');
        let answer = self.session.line(line);
        self.calls += usize::from(answer.is_some());
        answer
    }

    /// Adds a call in some spelling, now and then with silence or a spoilt copy before it.
    /// True if the call was done.
    fn call(&mut self, line: &Line) -> bool {
        if self.rng.percent(3) {
            let silent = line::silent(&mut self.rng);
            self.raw(&silent);
        }
        if self.rng.percent(5) {
            let spoilt = line.spoilt(&mut self.rng);
            self.raw(&spoilt);
        }
        let spelt = line.spelt(&mut self.rng);
        self.raw(&spelt).is_some_and(|answer| answer.starts_with("0 "))
    }

    fn finish(mut self) -> Vec<u8> {
        if self.rng.percent(40) {
            self.text.pop();
        }
        self.text
    }
}
