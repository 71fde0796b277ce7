//! Traces: what a bus master and a poor probe could have put on the lines.

use super::maps::{count_of, entry_at};
use super::random::Random;
use second::session::{CSB, SCLK, SDIO, SDO};

/// How often each sample is recorded.
#[derive(Clone, Copy)]
pub enum Sampling {
    Once,
    Times(usize),
    Uneven,
}

impl Sampling {
    pub fn any(random: &mut Random) -> Self {
        match random.below(12) {
            0 => Sampling::Times(random.between(2, 10)),
            1 => Sampling::Uneven,
            _ => Sampling::Once,
        }
    }
}

/// What the master believes to be set. It may be wrong after a glitch; the
/// frames that follow are then misread, as they would be on a bench.
#[derive(Clone, Copy, Default)]
struct Belief {
    lsb_first: bool,
    ascending: bool,
    sdo_active: bool,
    single: bool,
}

/// Makes a trace sample by sample, for the registers of one map.
pub struct Master<'a> {
    random: &'a mut Random,
    map: &'a [u8],
    count: usize,
    believed: Belief,
    /// The last byte written, so that a read back can find it on the line.
    last_written: u8,
    sampling: Sampling,
    samples: Vec<u8>,
}

/// A trace of about so many samples, or exactly so many.
pub fn trace(random: &mut Random, map: &[u8], length: usize, exactly: bool) -> Vec<u8> {
    let mut master = Master::new(random, map);
    master.samples.reserve(length + 4_096);
    let wild = master.random.one_in(6);
    while master.samples.len() < length {
        master.something(wild);
    }
    let mut samples = master.samples;
    if exactly {
        samples.truncate(length);
    }
    samples
}

/// Frames that turn all settings off, whatever they are.
pub fn blind_start(random: &mut Random, map: &[u8]) -> Vec<u8> {
    let mut master = Master::new(random, map);
    master.blind_start();
    master.samples
}

/// So many samples with CSB low and a clock that never rests, so that a frame
/// goes on in whatever piece it stands; CSB rises once in a while.
pub fn clocks(random: &mut Random, length: usize) -> Vec<u8> {
    let seldom = random.pick(&[5, 60, 400]);
    let mut clock = random.pick(&[0, SCLK]);
    let sample = |_| {
        clock ^= SCLK;
        let high = if random.one_in(seldom) { CSB } else { 0 };
        random.byte() & (SDIO | SDO) | clock | high
    };
    (0..length).map(sample).collect()
}

/// So many samples without sense.
pub fn noise(random: &mut Random, length: usize) -> Vec<u8> {
    (0..length).map(|_| random.byte() & 0x0F).collect()
}

impl<'a> Master<'a> {
    fn new(random: &'a mut Random, map: &'a [u8]) -> Self {
        let sampling = Sampling::any(random);
        Master {
            random,
            map,
            count: count_of(map),
            believed: Belief::default(),
            last_written: 0,
            sampling,
            samples: Vec::new(),
        }
    }

    fn something(&mut self, wild: bool) {
        match self.random.below(if wild { 12 } else { 32 }) {
            0 => self.noise(),
            1 => self.aborted_frame(),
            2 => self.glitched_frame(),
            3 => self.blind_start(),
            4 => self.idle(),
            _ => self.frame(),
        }
    }

    fn frame(&mut self) {
        let start = self.samples.len();
        self.select();
        let mut in_use = self.believed;
        let mut address = self.address();
        let mut read = self.random.one_in(3);
        self.instruction(read, address, in_use);
        for _ in 0..self.run_length() {
            self.byte(read, address, in_use);
            if in_use.single {
                in_use = self.believed;
                read = if self.random.one_in(4) { !read } else { read };
                address = self.address();
                self.instruction(read, address, in_use);
            } else {
                let step = if in_use.ascending { 1 } else { 0x7FFF };
                address = (address + step) & 0x7FFF;
            }
        }
        // Single instruction leaves one instruction without its byte.
        if in_use.single && self.random.coin() {
            self.byte(read, address, in_use);
        }
        self.release();
        self.resample(start);
    }

    fn run_length(&mut self) -> usize {
        match self.random.below(16) {
            0 => 0,
            1 => self.random.between(5, 60),
            _ => self.random.between(1, 4),
        }
    }

    /// Registers that do something often, any other address now and then.
    fn address(&mut self) -> u16 {
        let count = self.count.max(16);
        let address = match self.random.below(16) {
            0..=3 => self.random.pick(&[0x0000, 0x0001, 0x000F]),
            4 => self.random.between(count - 2, count + 2),
            5 => self.random.pick(&[0x7FFE, 0x7FFF, 0x0002]),
            6 => self.random.below(0x8000),
            7..=9 => self.random.below(16),
            _ => self.random.below(count),
        };
        address as u16
    }

    fn instruction(&mut self, read: bool, address: u16, in_use: Belief) {
        let word = u16::from(read) << 15 | address;
        for i in 0..16 {
            let place = if in_use.lsb_first { i } else { 15 - i };
            let level = if word >> place & 1 == 1 { SDIO } else { 0 };
            self.clock(level, SDO);
        }
    }

    fn byte(&mut self, read: bool, address: u16, in_use: Belief) {
        let v = if read { self.answer(address) } else { self.value(address) };
        let line = if read && in_use.sdo_active { SDO } else { SDIO };
        for i in 0..8 {
            let place = if in_use.lsb_first { i } else { 7 - i };
            let level = if v >> place & 1 == 1 { line } else { 0 };
            self.clock(level, (SDIO | SDO) & !line);
        }
        if !read {
            self.believe(address, v);
        }
    }

    /// One bit: the clock low, then high; the line not in use wanders.
    fn clock(&mut self, level: u8, other_line: u8) {
        let stray = self.random.byte() & other_line;
        self.samples.push(level | stray);
        self.samples.push(level | SCLK | stray);
    }

    /// A byte worth writing there.
    fn value(&mut self, address: u16) -> u8 {
        if self.random.one_in(4) {
            return self.random.byte();
        }
        match address {
            // Bytes that are their own mirrors, and then halves of them.
            0x0000 => self.random.pick(&[
                0x00, 0x42, 0x24, 0x18, 0x66, 0x5A, 0x3C, 0x7E, 0x81, 0xC3, 0xA5, 0x99, 0xFF, 0x40,
                0x20, 0x10, 0x02, 0x04, 0x08, 0x01, 0x80, 0x83,
            ]),
            0x0001 => self.random.pick(&[0x00, 0x80, 0x20, 0x10, 0xA0, 0xB0, 0x4F, 0xFF]),
            0x000F => self.random.pick(&[0x01, 0x01, 0x00, 0xFE, 0xFF]),
            // Now and then what the register may hold already, so that no bit moves.
            _ if self.random.one_in(6) => self.default(address),
            _ if self.random.one_in(6) => self.last_written,
            _ => self.random.byte(),
        }
    }

    /// The register's default, or 0 beyond the map.
    fn default(&self, address: u16) -> u8 {
        self.map.get(entry_at(self.map, usize::from(address)) + 2).copied().unwrap_or(0)
    }

    /// A byte that a chip might answer with.
    fn answer(&mut self, address: u16) -> u8 {
        match self.random.below(4) {
            0 => 0,
            1 => self.default(address),
            2 => self.last_written,
            _ => self.random.byte(),
        }
    }

    fn believe(&mut self, address: u16, v: u8) {
        match address {
            0x0000 if v != v.reverse_bits() => {}
            0x0000 => {
                self.believed.lsb_first = v & 0x42 != 0;
                self.believed.ascending = v & 0x24 != 0;
                self.believed.sdo_active = v & 0x18 != 0;
                self.believed.single &= v & 0x81 == 0;
            }
            0x0001 => self.believed.single = v & 0x80 != 0,
            _ => self.last_written = v,
        }
    }

    /// CSB falls; the clock may be high before and after, or rise with it.
    fn select(&mut self) {
        let lines = self.random.byte() & (SDIO | SDO | SCLK);
        if self.random.one_in(8) {
            let clock = self.random.pick(&[0, SCLK]);
            self.samples.push(CSB | clock);
        }
        let clock = if self.random.one_in(8) { lines & SCLK } else { 0 };
        self.samples.push(lines & !SCLK | clock);
    }

    /// CSB rises; the clock may fall before it, or move with it.
    fn release(&mut self) {
        if !self.random.one_in(8) {
            self.samples.push(0);
        }
        let lines = if self.random.coin() { 0 } else { self.random.byte() & 0x0F };
        self.samples.push(CSB | lines);
    }

    fn idle(&mut self) {
        for _ in 0..self.random.between(1, 40) {
            let lines = self.random.byte() & 0x0F;
            self.samples.push(CSB | lines);
        }
    }

    /// A frame that ends at any of its samples.
    fn aborted_frame(&mut self) {
        let start = self.samples.len();
        self.frame();
        let kept = self.random.below(self.samples.len() - start + 1);
        self.samples.truncate(start + kept);
        if !self.random.one_in(4) {
            let lines = self.random.byte() & 0x0F;
            self.samples.push(CSB | lines);
        }
        if self.random.coin() {
            self.blind_start();
        }
    }

    /// A frame with something wrong at one of its samples: an edge too many, a
    /// short rise of CSB, both lines at once, a sample lost or repeated.
    fn glitched_frame(&mut self) {
        let start = self.samples.len();
        self.frame();
        any_glitch(self.random, &mut self.samples, start);
        if self.random.coin() {
            self.blind_start();
        }
    }

    /// Zeros that any setting reads alike: 0x00 to 0x0000, then 0x00 to 0x0001.
    fn blind_start(&mut self) {
        self.samples.push(CSB);
        self.believed = Belief::default();
        for address in [0x0000, 0x0001] {
            self.samples.push(0);
            self.instruction(false, address, Belief::default());
            for _ in 0..8 {
                self.clock(0, SDO);
            }
            self.samples.extend([0, CSB]);
        }
    }

    /// Samples without sense, CSB high half of the time or seldom.
    fn noise(&mut self) {
        let seldom = self.random.pick(&[1, 4, 40, 400]);
        for _ in 0..self.random.between(1, 300) {
            let lines = self.random.byte() & (SCLK | SDIO | SDO);
            let high = self.random.coin() && self.random.one_in(seldom);
            self.samples.push(lines | u8::from(high));
        }
    }

    /// Repeats the samples from there on as the recorder would.
    fn resample(&mut self, start: usize) {
        let made = self.samples.split_off(start);
        let taken = resampled(self.random, &made, self.sampling);
        self.samples.extend(taken);
    }
}

/// Spoils one of the samples from there on.
pub fn any_glitch(random: &mut Random, samples: &mut Vec<u8>, start: usize) {
    let at = random.between(start, samples.len() - 1);
    let sample = samples[at];
    match random.below(6) {
        0 => drop(samples.splice(at..at, [sample & !SCLK, sample | SCLK])),
        1 => samples.insert(at, sample ^ CSB),
        2 => samples[at] = sample ^ (CSB | SCLK),
        3 => drop(samples.remove(at)),
        4 => samples.insert(at, sample ^ SCLK),
        _ => samples[at] = random.byte() & 0x0F,
    }
}

/// Samples repeated as the recorder would.
pub fn resampled(random: &mut Random, samples: &[u8], sampling: Sampling) -> Vec<u8> {
    match sampling {
        Sampling::Once => samples.to_vec(),
        Sampling::Times(times) => repeat(samples, || times),
        Sampling::Uneven => repeat(samples, || random.between(1, 4)),
    }
}

fn repeat(samples: &[u8], mut times: impl FnMut() -> usize) -> Vec<u8> {
    samples.iter().flat_map(|&sample| std::iter::repeat_n(sample, times())).collect()
}
