//! The session: what the lines have shown so far, and how samples move it on.
//! Registers play no part here; only the settings are kept, because they
//! decide how the next bits are read.

use super::rules::{Newer, Rules};
use super::settings::Settings;

pub const CSB: u8 = 1 << 0;
pub const SCLK: u8 = 1 << 1;
pub const SDIO: u8 = 1 << 2;
pub const SDO: u8 = 1 << 3;

/// Addresses have fifteen bits and wrap.
pub(super) const LAST_ADDRESS: u16 = 0x7FFF;

#[derive(Clone, Copy, Debug, PartialEq, Eq)]
pub enum Phase {
    Rest,
    Instruction,
    Data,
}

#[derive(Clone, Copy, Debug, PartialEq, Eq)]
pub struct Session {
    /// The last CSB and SCLK, where a sample has them.
    pub levels: u8,
    pub phase: Phase,
    /// Bits taken of the present instruction or byte, and what they make.
    pub bits: u8,
    pub value: u16,
    pub address: u16,
    pub read: bool,
    pub settings: Settings,
    /// The first four settings as the present instruction took them.
    pub in_use: Settings,
    /// In data of an older chip, the bytes left of the run, the present one
    /// included, or `STREAMING`; else 0.
    pub left: u8,
    /// Whether the end of this frame moves buffered registers (document 02, Ask
    /// 4). Set where a byte is written, with the map at hand: see `Registers`.
    pub armed: bool,
}

/// What one sample brought to an end.
#[derive(Clone, Copy)]
pub(super) enum Event {
    Written { address: u16, byte: u8 },
    Read { address: u16, byte: u8 },
    Cut { address: u16, bits: u8, in_data: bool },
}

impl Session {
    /// At rest, last SCLK low, all settings clear.
    pub fn opened() -> Self {
        Session {
            levels: CSB,
            phase: Phase::Rest,
            bits: 0,
            value: 0,
            address: 0,
            read: false,
            settings: Settings::NONE,
            in_use: Settings::NONE,
            left: 0,
            armed: false,
        }
    }

    /// Whether it is sound for a newer chip.
    pub fn is_sound(&self) -> bool {
        Newer.is_sound(self)
    }

    pub(super) fn is_selected(&self) -> bool {
        self.levels & CSB == 0
    }

    /// What is asked of each phase on every chip.
    pub(super) fn piece_stands(&self) -> bool {
        let value_fits = u32::from(self.value) < 1 << self.bits.min(16);
        let nothing_taken = self.bits == 0 && self.value == 0;
        let no_target = self.address == 0 && !self.read;
        let phase_stands = match self.phase {
            Phase::Rest => {
                nothing_taken && no_target && self.in_use == Settings::NONE && !self.armed
            }
            Phase::Instruction => self.is_selected() && self.bits <= 15 && value_fits && no_target,
            Phase::Data => self.bits <= 7 && value_fits && self.address <= LAST_ADDRESS,
        };
        // The last two only say that the fields hold what they are meant for.
        phase_stands && self.levels <= (CSB | SCLK) && self.in_use == self.in_use.usable()
    }

    /// Takes samples of a sound session, from `at` on, up to the first that
    /// brings something to an end, or all of them.
    pub(super) fn next_event(
        &mut self,
        rules: impl Rules,
        samples: &[u8],
        at: &mut usize,
    ) -> Option<Event> {
        while *at < samples.len() {
            if self.waits(rules) {
                *at = self.wait(rules, samples, *at);
                continue;
            }
            *at = self.take_bits(rules, samples, *at);
            if *at < samples.len() {
                *at += 1;
                let event = self.end_piece(rules, samples[*at - 1]);
                if event.is_some() {
                    return event;
                }
            }
        }
        None
    }

    /// Whether nothing is taken before CSB moves.
    #[inline(always)]
    fn waits<R: Rules>(&self, _: R) -> bool {
        self.phase == Phase::Rest || R::OLDER && !self.is_selected()
    }

    /// Takes samples up to the one where CSB moves, and gives the place after
    /// them. Only an older chip, passing over bits, waits for a rise; and only its
    /// run that stands still goes on where it was as CSB falls.
    #[inline(always)]
    fn wait<R: Rules>(&mut self, _: R, samples: &[u8], mut at: usize) -> usize {
        let before = if R::OLDER { self.levels & CSB } else { CSB };
        while samples[at] & CSB == before && at + 1 < samples.len() {
            at += 1;
        }
        self.levels = samples[at] & (CSB | SCLK);
        if before != 0 && self.is_selected() && self.phase == Phase::Rest {
            self.start_instruction();
        }
        at + 1
    }

    /// Takes bits of the present instruction or byte up to its last one or to
    /// the rise of CSB, and gives the place of that sample.
    #[inline(always)]
    fn take_bits(&mut self, rules: impl Rules, samples: &[u8], mut at: usize) -> usize {
        let (line, lsb_first) = (self.line(rules), self.in_use.has(Settings::LSB_FIRST));
        let last = if self.phase == Phase::Data { 7 } else { 15 };
        let (mut sclk, mut bits, mut value) = (self.levels & SCLK, self.bits, self.value);
        while at < samples.len() && samples[at] & CSB == 0 {
            let sample = samples[at];
            let level = sample & SCLK;
            if level > sclk {
                if bits == last {
                    break;
                }
                value = shift_in(value, bits, sample >> line & 1, lsb_first);
                bits += 1;
            }
            sclk = level;
            at += 1;
        }
        (self.levels, self.bits, self.value) = (sclk, bits, value);
        at
    }

    /// Takes the sample that ends the frame, or gives the present instruction
    /// or byte its last bit.
    #[inline(always)]
    fn end_piece(&mut self, rules: impl Rules, sample: u8) -> Option<Event> {
        self.levels = sample & (CSB | SCLK);
        if sample & CSB != 0 {
            return self.end_frame(rules);
        }
        let value = self.with_last_bit(rules, sample);
        if self.phase == Phase::Data {
            Some(self.end_byte(rules, value as u8))
        } else {
            rules.start_data(self, value);
            None
        }
    }

    #[inline(always)]
    pub(super) fn start_instruction(&mut self) {
        self.phase = Phase::Instruction;
        self.forget_piece();
        self.in_use = self.settings.usable();
    }

    /// No bits of a byte, for this address.
    #[inline(always)]
    pub(super) fn start_byte(&mut self, address: u16) {
        (self.bits, self.value) = (0, 0);
        self.address = address;
    }

    /// At rest; with CSB low, an older chip then passes over bits.
    #[inline(always)]
    pub(super) fn rest(&mut self) {
        self.phase = Phase::Rest;
        self.forget_piece();
        self.in_use = Settings::NONE;
        self.armed = false;
    }

    #[inline(always)]
    fn end_frame(&mut self, rules: impl Rules) -> Option<Event> {
        if rules.stalls(self) {
            return None;
        }
        let Session { address, bits, phase, .. } = *self;
        self.rest();
        if bits == 0 {
            None
        } else {
            Some(Event::Cut { address, bits, in_data: phase == Phase::Data })
        }
    }

    #[inline(always)]
    fn end_byte(&mut self, rules: impl Rules, byte: u8) -> Event {
        let Session { address, read, .. } = *self;
        if !read {
            self.settings = rules.settings_after(self.settings, address, byte);
        }
        rules.next_byte(self);
        if read {
            Event::Read { address, byte }
        } else {
            Event::Written { address, byte }
        }
    }

    #[inline(always)]
    fn forget_piece(&mut self) {
        (self.bits, self.value) = (0, 0);
        (self.address, self.read, self.left) = (0, false, 0);
    }

    #[inline(always)]
    fn with_last_bit(&self, rules: impl Rules, sample: u8) -> u16 {
        let lsb_first = self.in_use.has(Settings::LSB_FIRST);
        shift_in(self.value, self.bits, sample >> self.line(rules) & 1, lsb_first)
    }

    /// The line that bits come from, as its place in a sample. Only data has
    /// the direction set: an instruction always comes from SDIO.
    #[inline(always)]
    fn line(&self, rules: impl Rules) -> u32 {
        let from_sdo = self.read && rules.reads_sdo(self.in_use);
        if from_sdo { SDO } else { SDIO }.trailing_zeros()
    }
}

/// The value with one more bit, the first taken highest or lowest.
#[inline(always)]
fn shift_in(value: u16, bits: u8, bit: u8, lsb_first: bool) -> u16 {
    if lsb_first {
        value | u16::from(bit) << bits
    } else {
        value << 1 | u16::from(bit)
    }
}

/// One up or down, modulo 0x8000.
#[inline(always)]
pub fn next_address(address: u16, ascending: bool) -> u16 {
    let moved = if ascending { address.wrapping_add(1) } else { address.wrapping_sub(1) };
    moved & LAST_ADDRESS
}
