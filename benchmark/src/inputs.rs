//! What is read, sent and tested: maps and recordings, the same in every run.
//! Of each kind of recording there are as many as one asks for, by number.

use couplingnut_tests::chip::{sent, sent_older, Chip};
use couplingnut_tests::generate::maps::{good_entries, map_of};
use couplingnut_tests::generate::older::maps::good_older_map;
use couplingnut_tests::generate::random::Random;
use second::older::{Older, Part};
use second::sender::Order;
use second::session::CSB;

/// A run may descend from here by as many registers as the longest frame has
/// and stay clear of the control registers.
const FIRST_START: usize = 0x0020;

/// Chance for one kind of recording, another for each of their numbers.
fn chance(kind: u64, number: u64) -> Random {
    Random::new(kind + (number << 8))
}

pub fn map(count: usize) -> Vec<u8> {
    map_of(&good_entries(&mut Random::new(count as u64), count))
}

/// The map of an AD9557 with 512 registers.
pub fn older_map() -> Vec<u8> {
    good_older_map(&mut Random::new(512), Older { part: Part::Ad9557, top: 511 })
}

/// A bus master: it knows the settings that it has set, as an order names them.
struct Master {
    random: Random,
    settings: u64,
    samples: Vec<u8>,
}

impl Master {
    fn new(random: Random) -> Self {
        Master { random, settings: 0, samples: Vec::new() }
    }

    fn write(&mut self, start: usize, data: &[u8]) {
        let order = Order {
            direction: 0,
            settings: self.settings,
            start: start as u64,
            count: data.len() as u64,
            data,
        };
        self.samples.extend(sent(&order));
    }

    /// Writes the control registers, each in the settings as they then stand.
    fn set(&mut self, settings: u64) {
        let flags = |mask: u8, bit: u64| if settings >> bit & 1 == 1 { mask } else { 0 };
        self.write(0x0000, &[flags(0x42, 0) | flags(0x24, 1)]);
        self.settings = settings & 3 | self.settings & 4;
        self.write(0x0001, &[flags(0x80, 2)]);
        self.settings = settings;
    }

    /// Writes up to so many bytes, somewhere in a map of 512 registers.
    fn write_some(&mut self, most: usize) {
        let start = self.random.between(FIRST_START, 511 - most);
        let count = self.random.between(1, most);
        let data = self.random.bytes(count);
        self.write(start, &data);
    }

    fn read_some(&mut self, most: usize) {
        let order = Order {
            direction: 1,
            settings: self.settings,
            start: self.random.between(FIRST_START, 511 - most) as u64,
            count: self.random.between(1, most) as u64,
            data: &[],
        };
        self.samples.extend(sent(&order));
    }

    /// Breaks off what was sent since then, after any of its samples.
    fn abort(&mut self, since: usize) {
        let kept = self.random.below(self.samples.len() - since);
        self.samples.truncate(since + kept);
        self.samples.push(CSB);
    }

    /// A frame of any kind: the settings may change before it, and the select
    /// line may rise in it, and stay high for a while after it.
    fn anything(&mut self) {
        if self.random.one_in(8) {
            let settings = self.random.below(8) as u64;
            self.set(settings);
        }
        let since = self.samples.len();
        if self.random.one_in(3) {
            self.read_some(8);
        } else {
            self.write_some(8);
        }
        if self.random.one_in(16) {
            self.abort(since);
        }
        let idle = self.random.below(12);
        self.samples.extend(std::iter::repeat_n(CSB, idle));
    }

    fn recording(mut self, length: usize, frame: impl Fn(&mut Self)) -> Vec<u8> {
        while self.samples.len() < length {
            frame(&mut self);
        }
        self.samples.truncate(length);
        self.samples
    }
}

/// The sender's samples one after another, in these settings.
pub fn dense(number: u64, settings: u64, length: usize) -> Vec<u8> {
    let mut master = Master::new(chance(1, number));
    if settings != 0 {
        master.set(settings);
    }
    master.recording(length, |master| master.write_some(16))
}

/// Writes of so many bytes to an older chip of 512 registers, one after another.
pub fn older(number: u64, least: usize, most: usize, length: usize) -> Vec<u8> {
    let mut random = chance(5, number);
    let mut samples = Vec::new();
    while samples.len() < length {
        let start = random.between(FIRST_START, 511 - most) as u64;
        let count = random.between(least, most);
        let data = random.bytes(count);
        let order = Order { direction: 0, settings: 0, start, count: count as u64, data: &data };
        samples.extend(sent_older(511, &order));
    }
    samples.truncate(length);
    samples
}

/// Reads and writes in all settings, some broken off, with the bus idle now and then.
pub fn mixed(number: u64, length: usize) -> Vec<u8> {
    Master::new(chance(2, number)).recording(length, Master::anything)
}

/// The dense recording sampled so many times as often.
pub fn oversampled(number: u64, times: f64, length: usize) -> Vec<u8> {
    let at = |i: usize| (i as f64 / times) as usize;
    let once = dense(number, 0, at(length) + 1);
    (0..length).map(|i| once[at(i)]).collect()
}

/// The dense recording with each sample a number of times at random.
pub fn uneven(number: u64, least: usize, most: usize, length: usize) -> Vec<u8> {
    let mut random = chance(6, number);
    let once = dense(number, 0, length.div_ceil(least));
    let mut samples: Vec<u8> = once
        .iter()
        .flat_map(|&sample| std::iter::repeat_n(sample, random.between(least, most)))
        .collect();
    samples.truncate(length);
    samples
}

/// Streaming writes to an older chip, each sample so many times.
pub fn older_oversampled(number: u64, times: usize, length: usize) -> Vec<u8> {
    let once = older(number, 4, 16, length.div_ceil(times));
    let mut samples: Vec<u8> =
        once.iter().flat_map(|&sample| std::iter::repeat_n(sample, times)).collect();
    samples.truncate(length);
    samples
}

/// All lines at random.
pub fn noise(number: u64, length: usize) -> Vec<u8> {
    let mut random = chance(3, number);
    (0..length).map(|_| random.byte() & 0x0F).collect()
}

pub fn bytes(length: usize) -> Vec<u8> {
    Random::new(4).bytes(length)
}

/// How many records the samples give.
pub fn records(map: &[u8], samples: &[u8]) -> usize {
    Chip::opened(map).read(samples).len()
}
