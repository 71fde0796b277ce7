//! The registers in their two stages, and what a whole byte does to them.

use super::map::{RegisterMap, BLANK, BUFFERED, CONTROL, PLAIN, READ_ONLY, TRANSFER_ON_RISE};
use super::rules::Rules;
use super::settings::Settings;
use super::touched::{touch, words_for};

pub const NO_EFFECT: u8 = 0;
pub const ACTIVE_WRITTEN: u8 = 1;
pub const BUFFER_WRITTEN: u8 = 2;
pub const CONTROL_WRITTEN: u8 = 3;
pub const TRANSFERRED: u8 = 4;
pub const SOFT_RESET: u8 = 5;

/// A map in use with its two banks of n bytes each, by the rules of a chip.
pub struct Registers<'a, R> {
    pub(super) rules: R,
    map: RegisterMap<'a>,
    active: &'a mut [u8],
    buffer: &'a mut [u8],
    /// A bit for each register that was touched (document 02, Ask 7). None while
    /// nothing is written but defaults.
    words: &'a mut [u64],
    /// Whether the end of a frame may move buffered registers.
    moves_on_rise: bool,
}

/// What a caller lends for the registers of a map: a byte of each stage for each, and
/// the words of those that were touched.
pub struct Banks<'a> {
    pub active: &'a mut [u8],
    pub buffer: &'a mut [u8],
    pub words: &'a mut [u64],
}

/// What a write leaves: the byte of the stage written, or the control reading;
/// and the bits of that stage that moved (document 02, Ask 8).
pub struct Written {
    pub byte: u8,
    pub effect: u8,
    pub moved: u8,
}

impl<'a, R: Rules> Registers<'a, R> {
    /// The banks are n bytes each, or the number 4 refuses them; and where the map
    /// is named with another top, 12 does.
    pub fn new(
        rules: R,
        map: RegisterMap<'a>,
        active: &'a mut [u8],
        buffer: &'a mut [u8],
    ) -> Result<Self, u8> {
        if active.len() != map.count() || buffer.len() != map.count() {
            Err(4)
        } else if !rules.top_stands(map.count()) {
            Err(12)
        } else {
            let moves_on_rise = !R::OLDER && map.flags() & TRANSFER_ON_RISE != 0;
            Ok(Registers { rules, map, active, buffer, words: &mut [], moves_on_rise })
        }
    }

    /// The same for a reader, which also touches: there is a word for every 64
    /// registers, or the number 16 refuses.
    pub fn for_reader(rules: R, map: RegisterMap<'a>, banks: Banks<'a>) -> Result<Self, u8> {
        let Banks { active, buffer, words } = banks;
        let registers = Registers::new(rules, map, active, buffer)?;
        if words.len() == words_for(map.count()) {
            Ok(Registers { words, ..registers })
        } else {
            Err(16)
        }
    }

    /// Opening and soft reset: each default in both banks.
    pub fn put_defaults(&mut self) {
        let banks = self.active.iter_mut().zip(self.buffer.iter_mut());
        for ([_, _, default], (active, buffer)) in self.map.entries().iter().zip(banks) {
            *active = *default;
            *buffer = *default;
        }
    }

    /// Writes a whole byte. The settings are those after this byte.
    pub fn write(&mut self, address: u16, v: u8, settings: Settings) -> Written {
        let at = usize::from(address);
        match self.map.entry(address) {
            None | Some([BLANK | READ_ONLY, ..]) => {
                Written { byte: 0, effect: NO_EFFECT, moved: 0 }
            }
            Some([PLAIN, mask, _]) => {
                touch(self.words, address);
                write_stage(&mut self.active[at], mask, v, ACTIVE_WRITTEN)
            }
            Some([BUFFERED, mask, _]) => {
                touch(self.words, address);
                write_stage(&mut self.buffer[at], mask, v, BUFFER_WRITTEN)
            }
            Some(_) => {
                let effect = self.rules.control_effect(address, v);
                match effect {
                    SOFT_RESET => self.put_defaults(),
                    TRANSFERRED => self.transfer(),
                    _ => {}
                }
                Written { byte: self.rules.control_reading(settings, address), effect, moved: 0 }
            }
        }
    }

    /// Whether a session is armed after a write with this effect (document 02, Ask
    /// 4), by what it was before.
    #[inline(always)]
    pub(super) fn armed_after(&self, armed: bool, effect: u8) -> bool {
        match effect {
            BUFFER_WRITTEN => armed || self.moves_on_rise,
            SOFT_RESET => false,
            _ => armed,
        }
    }

    /// The end of a frame in an armed session, which may be another map's.
    pub(super) fn end_armed_frame(&mut self) {
        if self.moves_on_rise {
            self.transfer();
        }
    }

    /// Every buffered register's active byte takes its buffer byte.
    fn transfer(&mut self) {
        let banks = self.active.iter_mut().zip(self.buffer.iter());
        for ([kind, ..], (active, buffer)) in self.map.entries().iter().zip(banks) {
            if *kind == BUFFERED {
                *active = *buffer;
            }
        }
    }

    /// The byte that a read is due.
    pub fn due(&self, address: u16, settings: Settings) -> u8 {
        let at = usize::from(address);
        match self.map.entry(address) {
            None | Some([BLANK, ..]) => 0,
            Some([CONTROL, ..]) => self.rules.control_reading(settings, address),
            Some([BUFFERED, ..]) if self.rules.reads_buffer(settings) => self.buffer[at],
            Some(_) => self.active[at],
        }
    }
}

/// Writes one stage of a register, and tells which of its bits differ now.
fn write_stage(stage: &mut u8, mask: u8, v: u8, effect: u8) -> Written {
    let old = *stage;
    *stage = merge(old, mask, v);
    Written { byte: *stage, effect, moved: old ^ *stage }
}

/// The new bits where the mask has ones, the old ones elsewhere.
fn merge(old: u8, mask: u8, new: u8) -> u8 {
    old & !mask | new & mask
}
