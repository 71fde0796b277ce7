//! The session as a caller of the library holds it: 21 bytes, by the table of the
//! header; and a chip of a list, 56 bytes. This is the second implementation's side of
//! them.

use std::mem::offset_of;

use second::session::{Phase, Session, CSB, SCLK};
use second::settings::Settings;
use second::several::{BankRange, ListedChip};

pub const SESSION_SIZE: usize = 21;

pub type SessionBytes = [u8; SESSION_SIZE];

/// The version of the layout, its first byte. Version 1 had a sixth setting,
/// version 2 no bytes left, and version 3 ended before `ARMED_AT`.
pub const VERSION: u8 = 4;
/// Where the settings start, and after them the settings in use.
const SETTINGS_AT: usize = 10;
const IN_USE_AT: usize = 15;
/// The bytes left of an older chip's run. Every value of it is a session's.
pub const LEFT_AT: usize = 19;
/// Whether the end of the frame moves buffered registers.
pub const ARMED_AT: usize = 20;

/// The bytes that are 0 or 1: CSB, SCLK, the direction, every setting, and armed.
pub const FLAGS: [usize; 13] = [1, 2, 9, 10, 11, 12, 13, 14, 15, 16, 17, 18, ARMED_AT];
/// The byte that is 0 to 2.
pub const PHASE_AT: usize = 3;

const PHASES: [Phase; 3] = [Phase::Rest, Phase::Instruction, Phase::Data];

/// The settings in their order; the first four are also the settings in use.
const SETTINGS: [Settings; 5] = [
    Settings::LSB_FIRST,
    Settings::ASCENDING,
    Settings::SDO_ACTIVE,
    Settings::SINGLE_INSTRUCTION,
    Settings::BUFFER_READBACK,
];

/// The bytes of a session whose fields hold what they are meant for.
pub fn to_bytes(session: &Session) -> SessionBytes {
    let mut bytes = [0; SESSION_SIZE];
    bytes[0] = VERSION;
    bytes[1] = u8::from(session.levels & CSB != 0);
    bytes[2] = u8::from(session.levels & SCLK != 0);
    bytes[PHASE_AT] = session.phase as u8;
    bytes[4] = session.bits;
    bytes[5..7].copy_from_slice(&session.value.to_be_bytes());
    bytes[7..9].copy_from_slice(&session.address.to_be_bytes());
    bytes[9] = u8::from(session.read);
    for (i, one) in SETTINGS.into_iter().enumerate() {
        bytes[SETTINGS_AT + i] = u8::from(session.settings.has(one));
        if i < 4 {
            bytes[IN_USE_AT + i] = u8::from(session.in_use.has(one));
        }
    }
    bytes[LEFT_AT] = session.left;
    bytes[ARMED_AT] = u8::from(session.armed);
    bytes
}

/// The session of these bytes, sound or not, if they are those of a session.
pub fn from_bytes(bytes: &SessionBytes) -> Option<Session> {
    let phase = *PHASES.get(usize::from(bytes[PHASE_AT]))?;
    if bytes[0] != VERSION || FLAGS.into_iter().any(|at| bytes[at] > 1) {
        return None;
    }
    let levels = if bytes[1] == 1 { CSB } else { 0 } | if bytes[2] == 1 { SCLK } else { 0 };
    Some(Session {
        levels,
        phase,
        bits: bytes[4],
        value: u16::from_be_bytes([bytes[5], bytes[6]]),
        address: u16::from_be_bytes([bytes[7], bytes[8]]),
        read: bytes[9] == 1,
        settings: settings_of(&bytes[SETTINGS_AT..IN_USE_AT]),
        in_use: settings_of(&bytes[IN_USE_AT..LEFT_AT]),
        left: bytes[LEFT_AT],
        armed: bytes[ARMED_AT] == 1,
    })
}

fn settings_of(flags: &[u8]) -> Settings {
    let set = SETTINGS.into_iter().zip(flags).filter(|(_, &flag)| flag == 1);
    set.fold(Settings::NONE, |sum, (one, _)| sum.with(one))
}

pub const CHIP_SIZE: usize = 56;

/// A chip of a list (document 02, Ask 10). Two bytes before its ranges hold nothing.
#[repr(C)]
#[derive(Clone, Copy, Debug, PartialEq, Eq)]
pub struct ChipInC {
    pub session: SessionBytes,
    /// The mark, 0 or 1.
    pub contended: u8,
    pub active: BankRange,
    pub buffer: BankRange,
}

const _: () = assert!(size_of::<ChipInC>() == CHIP_SIZE);
const _: () = assert!(offset_of!(ChipInC, contended) == SESSION_SIZE);
const _: () = assert!(offset_of!(ChipInC, active.start) == 24);
const _: () = assert!(offset_of!(ChipInC, active.length) == 32);
const _: () = assert!(offset_of!(ChipInC, buffer.start) == 40);
const _: () = assert!(offset_of!(ChipInC, buffer.length) == 48);

impl ChipInC {
    /// The chip, if its bytes are those of a session and its mark is 0 or 1.
    pub fn listed(&self) -> Option<ListedChip> {
        let ChipInC { contended, active, buffer, .. } = *self;
        let session = from_bytes(&self.session).filter(|_| contended <= 1)?;
        Some(ListedChip { session, contended: contended == 1, active, buffer })
    }
}

impl From<ListedChip> for ChipInC {
    fn from(chip: ListedChip) -> Self {
        let ListedChip { session, contended, active, buffer } = chip;
        ChipInC { session: to_bytes(&session), contended: u8::from(contended), active, buffer }
    }
}
