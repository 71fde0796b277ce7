//! The five settings, as the registers 0x0000 and 0x0001 hold and show them.
//! Document 01's sixth, slow, is gone (document 02, Ask 9): only the count of
//! writes that ask for it is left.

pub const CONFIGURATION_A: u16 = 0x0000;
pub const CONFIGURATION_B: u16 = 0x0001;

/// A set of settings. Only the first four are ever taken in use.
#[derive(Clone, Copy, Debug, Default, PartialEq, Eq)]
pub struct Settings(u8);

/// Settings with their bits in a register: any of the bits sets the setting,
/// and the setting shows on all of them.
type Layout = &'static [(Settings, u8)];

const LAYOUT_A: Layout = &[
    (Settings::LSB_FIRST, 0b0100_0010),
    (Settings::ASCENDING, 0b0010_0100),
    (Settings::SDO_ACTIVE, 0b0001_1000),
];
const LAYOUT_B: Layout =
    &[(Settings::SINGLE_INSTRUCTION, 0b1000_0000), (Settings::BUFFER_READBACK, 0b0010_0000)];

impl Settings {
    pub const NONE: Settings = Settings(0);
    pub const LSB_FIRST: Settings = Settings(1 << 0);
    pub const ASCENDING: Settings = Settings(1 << 1);
    pub const SDO_ACTIVE: Settings = Settings(1 << 2);
    pub const SINGLE_INSTRUCTION: Settings = Settings(1 << 3);
    pub const BUFFER_READBACK: Settings = Settings(1 << 4);

    #[inline(always)]
    pub fn has(self, one: Settings) -> bool {
        self.0 & one.0 != 0
    }

    pub fn with(self, more: Settings) -> Settings {
        Settings(self.0 | more.0)
    }

    /// With this one set or clear.
    #[inline(always)]
    pub(super) fn set(self, one: Settings, on: bool) -> Settings {
        Settings(if on { self.0 | one.0 } else { self.0 & !one.0 })
    }

    /// The four that an instruction takes in use.
    #[inline(always)]
    pub(super) fn usable(self) -> Settings {
        Settings(self.0 & 0b01111)
    }

    /// Those of a register's settings that were set before.
    fn kept(self, layout: Layout) -> Settings {
        let kept = layout.iter().filter(|(one, _)| self.has(*one));
        kept.fold(Settings::NONE, |sum, (one, _)| sum.with(*one))
    }

    /// Those of a register's settings that a byte written to it sets.
    fn taken(layout: Layout, v: u8) -> Settings {
        let taken = layout.iter().filter(|(_, bits)| v & bits != 0);
        taken.fold(Settings::NONE, |sum, (one, _)| sum.with(*one))
    }

    fn shown(self, layout: Layout) -> u8 {
        layout.iter().filter(|(one, _)| self.has(*one)).map(|(_, bits)| bits).sum()
    }

    /// The settings after a whole byte was written to an address.
    pub(super) fn after_write(self, address: u16, v: u8) -> Settings {
        match address {
            CONFIGURATION_A if !is_own_mirror(v) => self,
            CONFIGURATION_A if asks_soft_reset(v) => Settings::taken(LAYOUT_A, v),
            CONFIGURATION_A => self.kept(LAYOUT_B).with(Settings::taken(LAYOUT_A, v)),
            CONFIGURATION_B => self.kept(LAYOUT_A).with(Settings::taken(LAYOUT_B, v)),
            _ => self,
        }
    }

    /// How a control register reads; the transfer register reads 0.
    pub(super) fn control_reading(self, address: u16) -> u8 {
        match address {
            CONFIGURATION_A => self.shown(LAYOUT_A),
            CONFIGURATION_B => self.shown(LAYOUT_B),
            _ => 0,
        }
    }
}

/// Whether this byte, written to this address, asks for the slow setting that
/// there is no more.
pub(super) fn asks_slow(address: u16, v: u8) -> bool {
    address == CONFIGURATION_B && v & 0b0001_0000 != 0
}

/// Whether a byte reads the same from both ends. Any other byte does nothing at
/// 0x0000 (document 02, Ask 2).
pub(super) fn is_own_mirror(v: u8) -> bool {
    v == v.reverse_bits()
}

/// Whether this byte, its own mirror and written to 0x0000, starts a soft reset.
pub(super) fn asks_soft_reset(v: u8) -> bool {
    v & 0b1000_0001 != 0
}
