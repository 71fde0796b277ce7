//! The register map in its two versions (document 02, Ask 3): its test, and access
//! to flags and entries of a map that passed.

use std::ops::RangeInclusive;

use super::rules::{Newer, Rules};

pub const BLANK: u8 = 0;
pub const READ_ONLY: u8 = 1;
pub const PLAIN: u8 = 2;
pub const BUFFERED: u8 = 3;
pub const CONTROL: u8 = 4;

pub const VERSION_1: u8 = 1;
/// Has a flag byte after the count.
pub const VERSION_2: u8 = 2;
/// The flag that asks for a transfer when the select rises (Ask 4).
pub const TRANSFER_ON_RISE: u8 = 0b0000_0001;
/// The flags that no map has.
const RESERVED_FLAGS: u8 = !TRANSFER_ON_RISE;
/// How many registers a map may have.
const COUNTS: RangeInclusive<usize> = 16..=8_192;
/// The registers that the place rules speak of, all below this address.
const PLACES: usize = 16;

/// A map that passed the test. It refers to the lent bytes and copies none.
#[derive(Clone, Copy)]
pub struct RegisterMap<'a> {
    flags: u8,
    entries: &'a [[u8; 3]],
}

/// Number 0 for a good map of a newer chip, else 2 or 3.
pub fn map_test(bytes: &[u8]) -> u8 {
    map_test_by(Newer, bytes)
}

/// The same for any chip: 2, 3 or, if it is named with another top, 12.
pub fn map_test_by(rules: impl Rules, bytes: &[u8]) -> u8 {
    match RegisterMap::new(rules, bytes) {
        Ok(map) if !rules.top_stands(map.count()) => 12,
        Ok(_) => 0,
        Err(number) => number,
    }
}

/// The bytes of the whole map that this length field announces, its own two
/// included, or `None` if no map of either version has this length.
pub fn whole_length(length: u16) -> Option<usize> {
    let length = usize::from(length);
    // After version and count, and after the flags too.
    let fits = [3, 4].into_iter().any(|before| {
        let entries = length.saturating_sub(before);
        entries % 3 == 0 && COUNTS.contains(&(entries / 3))
    });
    fits.then_some(2 + length)
}

impl<'a> RegisterMap<'a> {
    /// The map in use, or the number that refuses it.
    pub fn new(rules: impl Rules, bytes: &'a [u8]) -> Result<Self, u8> {
        let (flags, entries) = parts_of(bytes).ok_or(2)?;
        if rules.entries_stand(entries) {
            Ok(RegisterMap { flags, entries })
        } else {
            Err(3)
        }
    }

    /// The flag byte; 0 in version 1, which has none.
    pub fn flags(&self) -> u8 {
        self.flags
    }

    pub fn count(&self) -> usize {
        self.entries.len()
    }

    /// Kind, mask and default of the register, if the map goes that far.
    pub fn entry(&self, address: u16) -> Option<[u8; 3]> {
        self.entries.get(usize::from(address)).copied()
    }

    pub fn entries(&self) -> &'a [[u8; 3]] {
        self.entries
    }
}

/// What number 2 looks at: length, version, n and flags, and bytes neither
/// missing nor left over. Gives the flags and the entries.
pub(super) fn parts_of(bytes: &[u8]) -> Option<(u8, &[[u8; 3]])> {
    let &[length_high, length_low, version, count_high, count_low, ref rest @ ..] = bytes else {
        return None;
    };
    let (flags, entries) = match (version, rest) {
        (VERSION_1, _) => (0, rest),
        (VERSION_2, &[flags, ref entries @ ..]) => (flags, entries),
        _ => return None,
    };
    let length = usize::from(u16::from_be_bytes([length_high, length_low]));
    let count = usize::from(u16::from_be_bytes([count_high, count_low]));
    let header_stands = bytes.len() == 2 + length
        && COUNTS.contains(&count)
        && entries.len() == 3 * count
        && flags & RESERVED_FLAGS == 0;
    header_stands.then_some((flags, entries.as_chunks().0))
}

/// What number 3 looks at on a newer chip: the rule of each entry, and what each
/// place asks.
pub(super) fn entries_stand(entries: &[[u8; 3]]) -> bool {
    let (places, rest) = entries.split_at(PLACES);
    places
        .iter()
        .enumerate()
        .all(|(address, &entry)| entry_stands(entry) && place_stands(address, entry))
        && product_stands(entries)
        && rest.iter().all(|&entry| entry_stands(entry) && entry[0] != CONTROL)
}

/// Whether the product number, whatever the kinds of its two registers, is one
/// that a map may have.
pub(super) fn product_stands(entries: &[[u8; 3]]) -> bool {
    let product = u16::from_be_bytes([entries[0x0005][2], entries[0x0004][2]]);
    product != 0x0000 && product != 0xFFFF
}

pub(super) fn entry_stands([kind, mask, default]: [u8; 3]) -> bool {
    match kind {
        BLANK | CONTROL => mask == 0 && default == 0,
        READ_ONLY => mask == 0,
        PLAIN | BUFFERED => true,
        _ => false,
    }
}

fn place_stands(address: usize, [kind, mask, default]: [u8; 3]) -> bool {
    match address {
        0x0000 | 0x0001 | 0x000F => kind == CONTROL,
        0x0003..=0x0006 | 0x000B => kind == READ_ONLY,
        0x0007 | 0x000E => kind == BLANK,
        0x000A => kind == PLAIN && mask == 0xFF,
        0x000C => kind == READ_ONLY && default == 0x56,
        0x000D => kind == READ_ONLY && default == 0x04,
        _ => kind != CONTROL,
    }
}
