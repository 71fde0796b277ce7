//! Whose rules a call keeps: those of the newer chips, which are document 01's, or
//! those of an older clock chip (document 02, Ask 1), which are in `older`. Map,
//! session, registers and reader are written over either.

use super::map::entries_stand;
use super::registers::{CONTROL_WRITTEN, NO_EFFECT, SOFT_RESET, TRANSFERRED};
use super::session::{next_address, Phase, Session, LAST_ADDRESS};
use super::settings::{asks_soft_reset, is_own_mirror, Settings, CONFIGURATION_A, CONFIGURATION_B};

/// What differs from chip to chip.
pub trait Rules: Copy {
    /// Whether a session may stand in data with the select high, and at rest with
    /// the select low.
    const OLDER: bool;

    /// What number 3 looks at.
    fn entries_stand(self, entries: &[[u8; 3]]) -> bool;

    /// What number 12 looks at, for a map of so many registers.
    fn top_stands(self, count: usize) -> bool;

    /// What number 1 looks at.
    fn is_sound(self, session: &Session) -> bool;

    /// Goes from a whole instruction to its data.
    fn start_data(self, session: &mut Session, instruction: u16);

    /// Goes on after a whole byte. The settings are those after it.
    fn next_byte(self, session: &mut Session);

    /// Whether a rise of the select only makes the run wait.
    fn stalls(self, session: &Session) -> bool;

    /// Whether the data of a read comes from SDO.
    fn reads_sdo(self, in_use: Settings) -> bool;

    /// Whether a buffered register reads as its buffer byte.
    fn reads_buffer(self, settings: Settings) -> bool;

    /// The settings after a whole byte was written to an address.
    fn settings_after(self, settings: Settings, address: u16, v: u8) -> Settings;

    /// How a control register reads.
    fn control_reading(self, settings: Settings, address: u16) -> u8;

    /// What a byte written to a control register brings about.
    fn control_effect(self, address: u16, v: u8) -> u8;
}

/// The chips of document 01.
#[derive(Clone, Copy, Debug, PartialEq, Eq)]
pub struct Newer;

const TRANSFER: u16 = 0x000F;

impl Rules for Newer {
    const OLDER: bool = false;

    fn entries_stand(self, entries: &[[u8; 3]]) -> bool {
        entries_stand(entries)
    }

    fn top_stands(self, _: usize) -> bool {
        true
    }

    fn is_sound(self, session: &Session) -> bool {
        session.piece_stands()
            && session.left == 0
            && session.is_selected() != (session.phase == Phase::Rest)
    }

    #[inline(always)]
    fn start_data(self, session: &mut Session, instruction: u16) {
        session.start_byte(instruction & LAST_ADDRESS);
        session.read = instruction & 0x8000 != 0;
        session.phase = Phase::Data;
    }

    #[inline(always)]
    fn next_byte(self, session: &mut Session) {
        if session.in_use.has(Settings::SINGLE_INSTRUCTION) {
            session.start_instruction();
        } else {
            let ascending = session.in_use.has(Settings::ASCENDING);
            session.start_byte(next_address(session.address, ascending));
        }
    }

    #[inline(always)]
    fn stalls(self, _: &Session) -> bool {
        false
    }

    #[inline(always)]
    fn reads_sdo(self, in_use: Settings) -> bool {
        in_use.has(Settings::SDO_ACTIVE)
    }

    #[inline(always)]
    fn reads_buffer(self, settings: Settings) -> bool {
        settings.has(Settings::BUFFER_READBACK)
    }

    #[inline(always)]
    fn settings_after(self, settings: Settings, address: u16, v: u8) -> Settings {
        if address <= CONFIGURATION_B {
            settings.after_write(address, v)
        } else {
            settings
        }
    }

    fn control_reading(self, settings: Settings, address: u16) -> u8 {
        settings.control_reading(address)
    }

    fn control_effect(self, address: u16, v: u8) -> u8 {
        match address {
            CONFIGURATION_A if !is_own_mirror(v) => NO_EFFECT,
            CONFIGURATION_A if asks_soft_reset(v) => SOFT_RESET,
            TRANSFER if v & 1 != 0 => TRANSFERRED,
            _ => CONTROL_WRITTEN,
        }
    }
}
