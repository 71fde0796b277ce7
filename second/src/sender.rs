//! The sender: the samples of one read or write run.

use super::older::TOPS;
use super::session::{next_address, CSB, SCLK, SDIO};
use super::settings::CONFIGURATION_B;
use super::Answer;

const READ: u64 = 1;
const LSB_FIRST: u64 = 1;
const ASCENDING: u64 = 2;
const SINGLE_INSTRUCTION: u64 = 4;
const MOST_BYTES: u64 = 1_000;
const READ_INSTRUCTION: u16 = 0x8000;
/// The most bytes that an older chip's instruction counts, where it says how many,
/// and what it says of more.
const MOST_COUNTED: u64 = 3;
const LENGTH_AT: u32 = 13;
const STREAMING: u16 = 3;

/// An order as a caller hands it over. The numbers are as wide as a caller can
/// make them, so that nothing is cut to fit before it is looked at.
#[derive(Clone, Copy, Debug)]
pub struct Order<'a> {
    pub direction: u64,
    pub settings: u64,
    pub start: u64,
    pub count: u64,
    pub data: &'a [u8],
}

impl Order<'_> {
    fn is_read(&self) -> bool {
        self.direction == READ
    }

    fn is_single(&self) -> bool {
        self.settings & SINGLE_INSTRUCTION != 0
    }

    fn is_ascending(&self) -> bool {
        self.settings & ASCENDING != 0
    }

    fn is_lsb_first(&self) -> bool {
        self.settings & LSB_FIRST != 0
    }

    /// Bit 15 of its instructions.
    fn direction_bit(&self) -> u16 {
        if self.is_read() {
            READ_INSTRUCTION
        } else {
            0
        }
    }

    /// Byte i of the run; a read sends zeros.
    fn byte(&self, i: usize) -> u8 {
        if self.is_read() {
            0
        } else {
            self.data[i]
        }
    }

    /// What number 8 looks at.
    fn count_stands(&self) -> bool {
        let data_due = if self.is_read() { 0 } else { self.count };
        (1..=MOST_BYTES).contains(&self.count) && self.data.len() as u64 == data_due
    }

    /// Samples that the order takes, if nothing refuses it.
    pub(super) fn length(&self) -> usize {
        if self.is_single() {
            3 + 48 * self.count as usize
        } else {
            35 + 16 * self.count as usize
        }
    }

    /// The number that refuses the order in any room, 7 to 10, or 0.
    pub(super) fn number(&self) -> u8 {
        if self.direction > READ || self.settings > 7 {
            7
        } else if !self.count_stands() {
            8
        } else if self.start > 0x7FFF {
            9
        } else if self.is_single() && !self.is_read() && self.configures_early() {
            10
        } else {
            0
        }
    }

    /// Samples that it takes to an older chip.
    fn older_length(&self) -> usize {
        35 + 16 * self.count as usize
    }

    /// The number that refuses it in any room for an older chip with this top: 12,
    /// 7, 8 or 9, or 0.
    fn older_number(&self, top: u64) -> u8 {
        if !TOPS.contains(&top) {
            12
        } else if self.direction > READ || self.settings > LSB_FIRST {
            7
        } else if !self.count_stands() {
            8
        } else if self.leaves(top) {
            9
        } else {
            0
        }
    }

    /// Whether one of its addresses is not 0 to the top: it goes up lowest bit
    /// first, else down.
    fn leaves(&self, top: u64) -> bool {
        let beyond = if self.is_lsb_first() { top.saturating_sub(self.start) } else { self.start };
        self.start > top || self.count - 1 > beyond
    }

    /// Whether 0x0000 or 0x0001 is among the addresses before the last.
    fn configures_early(&self) -> bool {
        let mut address = self.start as u16;
        for _ in 1..self.count {
            if address <= CONFIGURATION_B {
                return true;
            }
            address = next_address(address, self.is_ascending());
        }
        false
    }
}

/// Puts the order's samples at the start of the outgoing buffer. With a
/// refusal (7 to 11) the buffer stays as it was.
pub fn send(order: &Order, outgoing: &mut [u8]) -> Answer {
    match order.number() {
        0 => put_frame(order.length(), |samples| send_bytes(order, samples), outgoing),
        number => Answer::refused(number),
    }
}

/// The same for an older clock chip, AD9557 or AD9508, with this top address
/// (document 02, Ask 1). It refuses with 12, 7, 8, 9 and 11.
pub fn send_older(top: u64, order: &Order, outgoing: &mut [u8]) -> Answer {
    match order.older_number(top) {
        0 => put_frame(order.older_length(), |samples| send_older_bytes(order, samples), outgoing),
        number => Answer::refused(number),
    }
}

/// A frame of so many samples: those between the first and the last two are
/// clocked out.
#[inline(always)]
fn put_frame(length: usize, clocked: impl FnOnce(&mut [u8]), outgoing: &mut [u8]) -> Answer {
    let Some(samples) = outgoing.get_mut(..length) else {
        return Answer::refused(11);
    };
    let between = 1..samples.len() - 2;
    samples[0] = 0;
    clocked(&mut samples[between]);
    let [.., last_but_one, last] = samples else {
        unreachable!("an order takes 51 samples at least")
    };
    *last_but_one = 0;
    *last = CSB;
    Answer::done(samples.len())
}

/// Instruction and data bits, each as SCLK low and then high.
fn send_bytes(order: &Order, samples: &mut [u8]) {
    let (lsb_first, direction) = (order.is_lsb_first(), order.direction_bit());
    let mut address = order.start as u16;
    let mut rest = samples;
    for i in 0..order.count as usize {
        if i == 0 || order.is_single() {
            rest = send_bits(rest, direction | address, 16, lsb_first);
        }
        rest = send_bits(rest, u16::from(order.byte(i)), 8, lsb_first);
        address = next_address(address, order.is_ascending());
    }
}

/// The same to an older chip: one instruction, which counts up to three bytes and
/// streams more.
fn send_older_bytes(order: &Order, samples: &mut [u8]) {
    let lsb_first = order.is_lsb_first();
    let length = if order.count <= MOST_COUNTED { order.count as u16 - 1 } else { STREAMING };
    let instruction = order.direction_bit() | length << LENGTH_AT | order.start as u16;
    let mut rest = send_bits(samples, instruction, 16, lsb_first);
    for i in 0..order.count as usize {
        rest = send_bits(rest, u16::from(order.byte(i)), 8, lsb_first);
    }
}

/// Clocks out a value of so many bits and gives back the samples after it.
fn send_bits(samples: &mut [u8], value: u16, width: usize, lsb_first: bool) -> &mut [u8] {
    let (mine, rest) = samples.split_at_mut(2 * width);
    for (i, pair) in mine.chunks_exact_mut(2).enumerate() {
        let place = if lsb_first { i } else { width - 1 - i };
        let level = if value >> place & 1 == 1 { SDIO } else { 0 };
        pair[0] = level;
        pair[1] = level | SCLK;
    }
    rest
}
