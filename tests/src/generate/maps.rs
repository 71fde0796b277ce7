//! Good maps, and maps with one rule broken.

use super::near::{altered, cut, Altered};
use super::random::Random;

/// Where in a map this register's kind stands; mask and default follow it. In
/// version 2 a flag byte stands before the entries too.
pub fn entry_at(map: &[u8], address: usize) -> usize {
    let header = if map.get(2) == Some(&2) { 6 } else { 5 };
    header + 3 * address
}

/// How many registers a map of this length has.
pub fn count_of(map: &[u8]) -> usize {
    map.len().saturating_sub(entry_at(map, 0)) / 3
}

/// A map of version 1 with these entries, its length and count as they should be.
pub fn map_of(entries: &[[u8; 3]]) -> Vec<u8> {
    whole_map(1, &[], entries)
}

/// The same of version 2, with these flags.
pub fn flagged_map_of(flags: u8, entries: &[[u8; 3]]) -> Vec<u8> {
    whole_map(2, &[flags], entries)
}

fn whole_map(version: u8, flags: &[u8], entries: &[[u8; 3]]) -> Vec<u8> {
    let [count_high, count_low] = (entries.len() as u16).to_be_bytes();
    let rest = [&[version, count_high, count_low][..], flags, entries.as_flattened()].concat();
    [&(rest.len() as u16).to_be_bytes()[..], &rest].concat()
}

/// The entries of a map.
pub fn entries_of(map: &[u8]) -> Vec<[u8; 3]> {
    map[entry_at(map, 0)..].as_chunks().0.to_vec()
}

/// A map as one of version 2 with these flags, whatever it was.
pub fn with_flags(map: &[u8], flags: u8) -> Vec<u8> {
    flagged_map_of(flags, &entries_of(map))
}

/// A map in both versions, and with the flag.
pub fn in_each_version(map: &[u8]) -> [Vec<u8>; 3] {
    [map_of(&entries_of(map)), with_flags(map, 0), with_flags(map, 1)]
}

/// Maps near this one: each byte of it takes every value, alone, and each length is cut
/// or drawn out.
pub fn maps_near(map: &[u8]) -> impl Iterator<Item = Vec<u8>> + '_ {
    let lengths = cut(map).chain((1..=4).map(move |more| [map, &[0; 4][..more]].concat()));
    altered(map).map(|Altered { bytes, .. }| bytes).chain(lengths)
}

/// A good map with nothing special in it: beside the registers that document 01
/// fixes, every one is plain, with all bits writable and default 0.
pub fn simple_map(count: usize) -> Vec<u8> {
    let entries: Vec<_> = (0..count)
        .map(|address| match address {
            0x0000 | 0x0001 | 0x000F => [4, 0, 0],
            0x0003..=0x0006 | 0x000B => [1, 0, 0x01],
            0x0007 | 0x000E => [0, 0, 0],
            0x000C => [1, 0, 0x56],
            0x000D => [1, 0, 0x04],
            _ => [2, 0xFF, 0x00],
        })
        .collect();
    map_of(&entries)
}

/// Puts other bytes in the place of this register's entry.
pub fn set_entry(map: &mut [u8], address: usize, entry: [u8; 3]) {
    let at = entry_at(map, address);
    map[at..at + 3].copy_from_slice(&entry);
}

/// A good map of so many registers, all that the rules leave free at random, the
/// version too. Half of them have the flag: a transfer when the select rises.
pub fn good_map(random: &mut Random, count: usize) -> Vec<u8> {
    let entries = good_entries(random, count);
    in_any_version(random, &entries)
}

/// A map of these entries, in either version, with the flag or without.
pub fn in_any_version(random: &mut Random, entries: &[[u8; 3]]) -> Vec<u8> {
    match random.below(4) {
        0 => map_of(entries),
        1 => flagged_map_of(0, entries),
        _ => flagged_map_of(1, entries),
    }
}

/// The entries of such a map.
pub fn good_entries(random: &mut Random, count: usize) -> Vec<[u8; 3]> {
    let mut entries: Vec<_> = (0..count).map(|address| entry(random, address)).collect();
    while matches!((entries[4][2], entries[5][2]), (0x00, 0x00) | (0xFF, 0xFF)) {
        entries[4][2] = random.byte();
    }
    entries
}

fn entry(random: &mut Random, address: usize) -> [u8; 3] {
    match address {
        0x0000 | 0x0001 | 0x000F => [4, 0, 0],
        0x0007 | 0x000E => [0, 0, 0],
        0x000A => [2, 0xFF, random.byte()],
        0x000C => [1, 0, 0x56],
        0x000D => [1, 0, 0x04],
        // Halves of 0x00 and 0xFF come near the product numbers not allowed.
        0x0004 | 0x0005 => [1, 0, random_edge(random)],
        0x0003 | 0x0006 | 0x000B => [1, 0, random.byte()],
        _ => match random.below(16) {
            0 => [0, 0, 0],
            1 => [1, 0, random.byte()],
            2..=7 => [2, random_edge(random), random.byte()],
            _ => [3, random_edge(random), random.byte()],
        },
    }
}

/// Any byte, but 0x00 and 0xFF often.
fn random_edge(random: &mut Random) -> u8 {
    match random.below(3) {
        0 => 0xFF,
        1 if random.coin() => 0x00,
        _ => random.byte(),
    }
}

/// Counts from 16 to 8,192, mostly small.
pub fn count(random: &mut Random) -> usize {
    match random.below(64) {
        0 => random.between(1_000, 8_191),
        1 => 8_192,
        2..=7 => random.between(100, 600),
        8..=23 => 16,
        _ => random.between(17, 60),
    }
}

/// One way in which an entry goes wrong, on any chip.
#[derive(Clone, Copy, Debug, PartialEq, Eq)]
pub enum Flaw {
    UnknownKind,
    BlankMask,
    BlankDefault,
    ReadOnlyMask,
    ControlMask,
    ControlDefault,
    ControlElsewhere,
    ControlMissing,
}

impl Flaw {
    pub const ALL: [Flaw; 8] = [
        Flaw::UnknownKind,
        Flaw::BlankMask,
        Flaw::BlankDefault,
        Flaw::ReadOnlyMask,
        Flaw::ControlMask,
        Flaw::ControlDefault,
        Flaw::ControlElsewhere,
        Flaw::ControlMissing,
    ];

    /// Whether it is one where the chip has a control register, and not anywhere else.
    pub fn is_of_control(self) -> bool {
        matches!(self, Flaw::ControlMask | Flaw::ControlDefault | Flaw::ControlMissing)
    }

    /// An entry with this flaw; `some` is any byte but 0.
    pub fn entry(self, random: &mut Random, some: u8) -> [u8; 3] {
        match self {
            Flaw::UnknownKind => [random.between(5, 255) as u8, 0, 0],
            Flaw::BlankMask => [0, some, 0],
            Flaw::BlankDefault => [0, 0, some],
            Flaw::ReadOnlyMask => [1, some, 0x56],
            Flaw::ControlMask => [4, some, 0],
            Flaw::ControlDefault => [4, 0, some],
            Flaw::ControlElsewhere => [4, 0, 0],
            Flaw::ControlMissing => [random.below(4) as u8, 0, 0],
        }
    }
}

/// One way in which a map goes wrong.
#[derive(Clone, Copy, Debug, PartialEq, Eq)]
pub enum Damage {
    // Number 2.
    Shorter,
    FewerThanFive,
    LengthOffByOne,
    LengthOfOtherCount,
    AnyLength,
    Version,
    OtherVersion,
    ReservedFlag,
    CountOffByOne,
    AnyCount,
    FifteenRegisters,
    TooManyRegisters,
    // Number 3.
    Entry(Flaw),
    ReadOnlyPlace,
    BlankPlace,
    ScratchKind,
    ScratchMask,
    VendorLow,
    VendorHigh,
    ProductZero,
    ProductOnes,
}

impl Damage {
    pub const ALL: [Damage; 28] = [
        Damage::Shorter,
        Damage::FewerThanFive,
        Damage::LengthOffByOne,
        Damage::LengthOfOtherCount,
        Damage::AnyLength,
        Damage::Version,
        Damage::OtherVersion,
        Damage::ReservedFlag,
        Damage::CountOffByOne,
        Damage::AnyCount,
        Damage::FifteenRegisters,
        Damage::TooManyRegisters,
        Damage::Entry(Flaw::UnknownKind),
        Damage::Entry(Flaw::BlankMask),
        Damage::Entry(Flaw::BlankDefault),
        Damage::Entry(Flaw::ReadOnlyMask),
        Damage::Entry(Flaw::ControlMask),
        Damage::Entry(Flaw::ControlDefault),
        Damage::Entry(Flaw::ControlElsewhere),
        Damage::Entry(Flaw::ControlMissing),
        Damage::ReadOnlyPlace,
        Damage::BlankPlace,
        Damage::ScratchKind,
        Damage::ScratchMask,
        Damage::VendorLow,
        Damage::VendorHigh,
        Damage::ProductZero,
        Damage::ProductOnes,
    ];

    /// The number that refuses a good map with this damage alone.
    pub fn number(self) -> u8 {
        match self {
            Damage::Entry(_) | Damage::ReadOnlyPlace | Damage::BlankPlace => 3,
            Damage::ScratchKind | Damage::ScratchMask => 3,
            Damage::VendorLow | Damage::VendorHigh => 3,
            Damage::ProductZero | Damage::ProductOnes => 3,
            _ => 2,
        }
    }

    /// Breaks one rule of a good map.
    pub fn apply(self, random: &mut Random, map: &mut Vec<u8>) {
        if self.number() == 2 {
            self.break_header(random, map);
        } else {
            let (address, entry) = self.broken_entry(random, map);
            set_entry(map, address, entry);
        }
        if matches!(self, Damage::ProductZero | Damage::ProductOnes) {
            let (low, high) = (entry_at(map, 0x0004) + 2, entry_at(map, 0x0005) + 2);
            map[high] = map[low];
        }
    }

    fn break_header(self, random: &mut Random, map: &mut Vec<u8>) {
        let (count, length) = (count_of(map), map.len() - 2);
        match self {
            Damage::Shorter => map.truncate(random.below(map.len())),
            Damage::FewerThanFive => map.truncate(random.below(5)),
            Damage::LengthOffByOne => put(map, 0, random.pick(&[length - 1, length + 1])),
            Damage::LengthOfOtherCount => put(map, 0, random.pick(&[length - 3, length + 3])),
            Damage::AnyLength => put(map, 0, other(random, length)),
            Damage::Version => map[2] = map[2].wrapping_add(random.between(1, 255) as u8),
            // With its length, but a byte too few or too many for it.
            Damage::OtherVersion => {
                let other = 3 - map[2];
                put(map, 0, usize::from(other) + 2 + 3 * count);
                map[2] = other;
            }
            Damage::ReservedFlag => {
                let flags = random.below(2) | random.between(1, 127) << 1;
                *map = with_flags(map, flags as u8);
            }
            Damage::CountOffByOne => put(map, 3, random.pick(&[count - 1, count + 1])),
            Damage::AnyCount => put(map, 3, other(random, count)),
            Damage::FifteenRegisters => *map = resized(map, 15),
            Damage::TooManyRegisters => *map = resized(map, 8_193),
            _ => unreachable!("{self:?} breaks an entry"),
        }
    }

    /// The entry that breaks the rule, and where.
    fn broken_entry(self, random: &mut Random, map: &[u8]) -> (usize, [u8; 3]) {
        let free = free_address(random, map);
        let some = random.between(1, 255) as u8;
        let unlike = |random: &mut Random, kind| (kind + random.between(1, 3) as u8) % 4;
        match self {
            Damage::Entry(flaw) => (flawed_place(random, flaw, free), flaw.entry(random, some)),
            Damage::ReadOnlyPlace => {
                let address = random.pick(&[3, 4, 5, 6, 0x0B, 0x0C, 0x0D]);
                let kept = map[entry_at(map, address) + 2];
                (address, [random.pick(&[2, 3]), 0, kept])
            }
            Damage::BlankPlace => {
                (random.pick(&[0x0007, 0x000E]), [random.between(1, 3) as u8, 0, 0])
            }
            Damage::ScratchKind => match unlike(random, 2) {
                3 => (0x000A, [3, 0xFF, some]),
                kind => (0x000A, [kind, 0, 0]),
            },
            Damage::ScratchMask => (0x000A, [2, !some, random.byte()]),
            Damage::VendorLow => (0x000C, [1, 0, 0x56 ^ some]),
            Damage::VendorHigh => (0x000D, [1, 0, 0x04 ^ some]),
            Damage::ProductZero => (0x0004, [1, 0, 0x00]),
            Damage::ProductOnes => (0x0004, [1, 0, 0xFF]),
            _ => unreachable!("{self:?} breaks the header"),
        }
    }
}

/// An address where any kind but control may stand.
fn free_address(random: &mut Random, map: &[u8]) -> usize {
    let beyond = random.below(count_of(map) - 16 + 1);
    match beyond {
        0 => random.pick(&[0x0002, 0x0008, 0x0009]),
        _ => 15 + beyond,
    }
}

/// Where an entry with this flaw is put.
fn flawed_place(random: &mut Random, flaw: Flaw, free: usize) -> usize {
    match flaw {
        Flaw::UnknownKind => free,
        Flaw::BlankMask | Flaw::BlankDefault => random.pick(&[free, 0x0007, 0x000E]),
        Flaw::ReadOnlyMask => random.pick(&[free, 0x0003, 0x000B]),
        Flaw::ControlElsewhere => random.pick(&[free, 0x0007, 0x000A]),
        _ => random.pick(&[0x0000, 0x0001, 0x000F]),
    }
}

/// The same map with entries left off, or with plain ones added.
fn resized(map: &[u8], count: usize) -> Vec<u8> {
    let mut entries = entries_of(map);
    entries.resize(count, [2, 0xFF, 0x00]);
    match map[2] {
        1 => map_of(&entries),
        _ => flagged_map_of(map[5], &entries),
    }
}

fn put(map: &mut [u8], at: usize, number: usize) {
    map[at..at + 2].copy_from_slice(&(number as u16).to_be_bytes());
}

/// Any 16-bit number but this one.
fn other(random: &mut Random, number: usize) -> usize {
    (number + random.between(1, 0xFFFF)) & 0xFFFF
}
