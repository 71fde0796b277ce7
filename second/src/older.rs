//! The older clock chips AD9557 and AD9508 (document 02, Ask 1; source documents
//! 001 and 002): what they do otherwise than the newer ones. A caller names the
//! part and its top address.

use std::ops::RangeInclusive;

use super::map::{entry_stands, CONTROL};
use super::registers::{CONTROL_WRITTEN, TRANSFERRED};
use super::rules::Rules;
use super::session::{Phase, Session};
use super::settings::Settings;

/// Bit 6 is the bit order.
const CONFIGURATION: u16 = 0x0000;
/// Bit 0, on the AD9557 alone: reads show the buffer stage.
const READBACK: u16 = 0x0004;
/// Bit 0 updates all buffered registers.
const UPDATE: u16 = 0x0005;
const LSB_FIRST_BIT: u8 = 1 << 6;
const LOWEST_BIT: u8 = 1 << 0;

/// The tops that there are.
pub const TOPS: RangeInclusive<u64> = 0x000F..=0x1FFF;

/// The bytes left of a run that streams; a counted one has 1 to 3.
pub const STREAMING: u8 = 4;

#[derive(Clone, Copy, Debug, PartialEq, Eq)]
pub enum Part {
    Ad9557,
    Ad9508,
}

/// A part with its top address, as wide as a caller can make it.
#[derive(Clone, Copy, Debug, PartialEq, Eq)]
pub struct Older {
    pub part: Part,
    pub top: u64,
}

impl Older {
    fn is_control(self, address: u16) -> bool {
        match address {
            CONFIGURATION | UPDATE => true,
            READBACK => self.part == Part::Ad9557,
            _ => false,
        }
    }

    fn is_above_top(self, address: u16) -> bool {
        u64::from(address) > self.top
    }
}

impl Rules for Older {
    const OLDER: bool = true;

    fn entries_stand(self, entries: &[[u8; 3]]) -> bool {
        (0..).zip(entries).all(|(address, &entry)| {
            entry_stands(entry) && self.is_control(address) == (entry[0] == CONTROL)
        })
    }

    fn top_stands(self, count: usize) -> bool {
        TOPS.contains(&self.top) && self.top + 1 == count as u64
    }

    /// At rest with the select low, a session passes over bits. In data with the
    /// select high it waits for the next byte of a counted run.
    fn is_sound(self, session: &Session) -> bool {
        let Session { bits, address, left, .. } = *session;
        session.piece_stands()
            && !session.armed
            && match session.phase {
                Phase::Rest | Phase::Instruction => left == 0,
                Phase::Data => {
                    let waits = bits == 0 && left != STREAMING;
                    (1..=STREAMING).contains(&left)
                        && !self.is_above_top(address)
                        && (session.is_selected() || waits)
                }
            }
    }

    /// Read or write, two bits of length, thirteen of address.
    #[inline(always)]
    fn start_data(self, session: &mut Session, instruction: u16) {
        let address = instruction & 0x1FFF;
        if self.is_above_top(address) {
            return session.rest();
        }
        session.start_byte(address);
        session.read = instruction & 0x8000 != 0;
        session.left = (instruction >> 13 & 3) as u8 + 1;
        session.phase = Phase::Data;
    }

    #[inline(always)]
    fn next_byte(self, session: &mut Session) {
        let Session { address, left, .. } = *session;
        let up = session.in_use.has(Settings::LSB_FIRST);
        let at_end = if up { u64::from(address) == self.top } else { address == 0 };
        if left == 1 || at_end {
            return session.rest();
        }
        session.start_byte(if up { address + 1 } else { address - 1 });
        session.left = if left == STREAMING { STREAMING } else { left - 1 };
    }

    #[inline(always)]
    fn stalls(self, session: &Session) -> bool {
        session.phase == Phase::Data && session.bits == 0 && session.left != STREAMING
    }

    #[inline(always)]
    fn reads_sdo(self, _: Settings) -> bool {
        false
    }

    #[inline(always)]
    fn reads_buffer(self, settings: Settings) -> bool {
        self.part == Part::Ad9557 && settings.has(Settings::BUFFER_READBACK)
    }

    #[inline(always)]
    fn settings_after(self, settings: Settings, address: u16, v: u8) -> Settings {
        match address {
            CONFIGURATION => settings.set(Settings::LSB_FIRST, v & LSB_FIRST_BIT != 0),
            READBACK if self.is_control(READBACK) => {
                settings.set(Settings::BUFFER_READBACK, v & LOWEST_BIT != 0)
            }
            _ => settings,
        }
    }

    fn control_reading(self, settings: Settings, address: u16) -> u8 {
        match address {
            CONFIGURATION if settings.has(Settings::LSB_FIRST) => LSB_FIRST_BIT,
            READBACK if settings.has(Settings::BUFFER_READBACK) => LOWEST_BIT,
            _ => 0,
        }
    }

    fn control_effect(self, address: u16, v: u8) -> u8 {
        if address == UPDATE && v & LOWEST_BIT != 0 {
            TRANSFERRED
        } else {
            CONTROL_WRITTEN
        }
    }
}
