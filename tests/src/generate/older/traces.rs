//! Traces: what a master of an older chip and a poor probe could have put on the
//! lines, with runs that stall, stop early or go on for too long.

use crate::generate::random::Random;
use crate::generate::traces::{any_glitch, noise, resampled, Sampling};
use second::older::Older;
use second::session::{CSB, SCLK, SDIO, SDO};

/// The length field of a run that streams.
const STREAMING: u16 = 3;

/// Makes a trace sample by sample.
struct Master<'a> {
    random: &'a mut Random,
    older: Older,
    /// What it believes to be set. It may be wrong after a glitch.
    lsb_first: bool,
    last_written: u8,
    samples: Vec<u8>,
}

/// A trace of exactly so many samples.
pub fn older_trace(random: &mut Random, older: Older, length: usize) -> Vec<u8> {
    let sampling = Sampling::any(random);
    let mut master =
        Master { random, older, lsb_first: false, last_written: 0, samples: Vec::new() };
    let wild = master.random.one_in(6);
    while master.samples.len() < length {
        let start = master.samples.len();
        master.something(wild);
        let made = master.samples.split_off(start);
        let made = resampled(master.random, &made, sampling);
        master.samples.extend(made);
    }
    master.samples.truncate(length);
    master.samples
}

impl Master<'_> {
    fn something(&mut self, wild: bool) {
        match self.random.below(if wild { 10 } else { 28 }) {
            0 => {
                let length = self.random.between(1, 200);
                let made = noise(self.random, length);
                self.samples.extend(made);
            }
            1 => self.stopped_frame(),
            2 => self.glitched_frame(),
            3 => self.blind_start(),
            4 => self.idle(),
            _ => self.frame(),
        }
    }

    /// One run: an instruction, and as many bytes as it counts, or other than that.
    fn frame(&mut self) {
        self.select();
        let lsb_first = self.lsb_first;
        let (read, length, start) = (self.random.one_in(3), self.length(), self.address());
        self.bits(u16::from(read) << 15 | length << 13 | start, 16, lsb_first);
        let bytes = self.bytes_sent(length);
        for i in 0..bytes {
            if length != STREAMING && self.random.one_in(3) || self.random.one_in(60) {
                self.stall();
            }
            let address = if lsb_first { start + i } else { start.wrapping_sub(i) } & 0x1FFF;
            let v = self.value(address);
            self.bits(u16::from(v), 8, lsb_first);
            if !read {
                self.believe(address, v, i <= length || length == STREAMING);
            }
        }
        self.release();
    }

    fn length(&mut self) -> u16 {
        self.random.below(4) as u16
    }

    /// Mostly as many as were counted; one or two more or fewer, too.
    fn bytes_sent(&mut self, length: u16) -> u16 {
        let most = if length == STREAMING { self.random.between(0, 9) as u16 } else { length + 1 };
        match self.random.below(8) {
            0 => most.saturating_sub(self.random.between(1, 2) as u16),
            1 | 2 => most + self.random.between(1, 3) as u16,
            _ => most,
        }
    }

    /// Control registers and both ends often, any other address now and then.
    fn address(&mut self) -> u16 {
        let top = self.older.top as usize;
        let address = match self.random.below(16) {
            0..=3 => self.random.pick(&[0x0000, 0x0004, 0x0005]),
            4 => self.random.below(4),
            5 | 6 => top - self.random.below(4),
            7 => top + self.random.between(1, 3),
            8 => self.random.below(0x2000),
            _ => self.random.below(top + 1),
        };
        address as u16 & 0x1FFF
    }

    fn value(&mut self, address: u16) -> u8 {
        match address {
            _ if self.random.one_in(4) => self.random.byte(),
            0x0000 => self.random.pick(&[0x00, 0x40, 0x40, 0xBF, 0xFF]),
            0x0004 | 0x0005 => self.random.pick(&[0x00, 0x01, 0x01, 0xFE, 0xFF]),
            _ if self.random.one_in(4) => self.last_written,
            _ => self.random.byte(),
        }
    }

    fn believe(&mut self, address: u16, v: u8, in_count: bool) {
        if address == 0 && in_count {
            self.lsb_first = v & 0x40 != 0;
        }
        self.last_written = v;
    }

    /// Bits on SDIO, the clock low and then high; SDO wanders.
    fn bits(&mut self, value: u16, width: u32, lsb_first: bool) {
        for i in 0..width {
            let place = if lsb_first { i } else { width - 1 - i };
            let level = if value >> place & 1 == 1 { SDIO } else { 0 };
            let stray = self.random.byte() & SDO;
            self.samples.extend([level | stray, level | stray | SCLK]);
        }
    }

    /// The select rises and falls again, a few times in a row; the other lines
    /// move meanwhile.
    fn stall(&mut self) {
        for _ in 0..self.random.pick(&[1, 1, 1, 2, 3]) {
            if self.random.coin() {
                self.samples.push(0);
            }
            let longest = self.random.pick(&[1, 4, 40]);
            for _ in 0..self.random.between(1, longest) {
                self.samples.push(CSB | self.random.byte() & 0x0F);
            }
            self.select();
        }
    }

    /// CSB falls; the clock may be high before and after, or rise with it.
    fn select(&mut self) {
        let lines = self.random.byte() & (SDIO | SDO);
        let clock = if self.random.one_in(8) { SCLK } else { 0 };
        self.samples.push(lines | clock);
    }

    /// CSB rises; the clock may fall before it, or move with it.
    fn release(&mut self) {
        if !self.random.one_in(8) {
            self.samples.push(0);
        }
        self.samples.push(CSB | self.random.byte() & 0x0F);
    }

    fn idle(&mut self) {
        for _ in 0..self.random.between(1, 20) {
            self.samples.push(CSB | self.random.byte() & 0x0F);
        }
    }

    /// A frame that ends at any of its samples; what was left waiting is mostly
    /// ended too.
    fn stopped_frame(&mut self) {
        let start = self.samples.len();
        self.frame();
        let kept = self.random.below(self.samples.len() - start + 1);
        self.samples.truncate(start + kept);
        self.samples.push(CSB | self.random.byte() & 0x0F);
        if !self.random.one_in(3) {
            self.blind_start();
        }
    }

    fn glitched_frame(&mut self) {
        let start = self.samples.len();
        self.frame();
        any_glitch(self.random, &mut self.samples, start);
        if self.random.coin() {
            self.blind_start();
        }
    }

    /// A single bit ends whatever is waiting; then zeros, which either bit order
    /// reads alike: 0x00 to 0x0000.
    fn blind_start(&mut self) {
        self.samples.extend([CSB, 0, SCLK, CSB, 0]);
        self.bits(0, 16, false);
        self.bits(0, 8, false);
        self.samples.extend([0, CSB]);
        self.lsb_first = false;
    }
}
