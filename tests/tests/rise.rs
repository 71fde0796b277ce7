//! The transfer when the select rises, by both sides: Ask 4 of document 02. Sessions
//! are compared with the rest, since much of this shows nowhere else.

mod calls;
mod mark;
mod moves;
mod older;
mod refusals;

use couplingnut_tests::by_hand::clocked_number;
use couplingnut_tests::chip::Chip;
use couplingnut_tests::generate::maps::{set_entry, simple_map, with_flags};
use second::settings::Settings;

/// The registers from 0x0010 on: buffered with every bit, some and none writable,
/// and each other kind between them.
const ENTRIES: [[u8; 3]; 8] = [
    [3, 0xFF, 0x11],
    [3, 0x0F, 0x22],
    [3, 0x00, 0x33],
    [2, 0xFF, 0x44],
    [1, 0x00, 0x55],
    [0, 0x00, 0x00],
    [3, 0xFF, 0x66],
    [2, 0x00, 0x77],
];

const BUFFERED: [usize; 4] = [0x0010, 0x0011, 0x0012, 0x0016];

const COUNT: usize = 0x0018;

fn map_with(flags: u8) -> Vec<u8> {
    let mut map = with_flags(&simple_map(COUNT), flags);
    for (address, entry) in (0x0010..).zip(ENTRIES) {
        set_entry(&mut map, address, entry);
    }
    map
}

/// A chip at rest on which no register's stages are alike.
fn chip_of(map: &[u8]) -> Chip {
    let mut chip = Chip::opened(map);
    chip.active = (0x80..).take(COUNT).collect();
    chip.buffer = (0x40..).take(COUNT).collect();
    chip
}

fn flagged_chip() -> Chip {
    chip_of(&map_with(1))
}

/// The same in single instruction.
fn single_chip() -> Chip {
    let mut chip = flagged_chip();
    chip.session.settings = Settings::SINGLE_INSTRUCTION;
    chip
}

/// The active bank with each buffered register's buffer byte.
fn moved(chip: &Chip) -> Vec<u8> {
    let mut active = chip.active.clone();
    for at in BUFFERED {
        active[at] = chip.buffer[at];
    }
    active
}

/// A number of so many bits, highest first.
fn number(value: u16, width: u32) -> Vec<u8> {
    clocked_number(value, width, false)
}

fn write_to(address: u16) -> Vec<u8> {
    number(address, 16)
}

fn read_from(address: u16) -> Vec<u8> {
    number(0x8000 | address, 16)
}

fn byte(v: u8) -> Vec<u8> {
    number(u16::from(v), 8)
}

/// Pieces as one frame.
fn frame(pieces: &[Vec<u8>]) -> Vec<u8> {
    [&[0x00][..], &pieces.concat(), &[0x00, 0x01]].concat()
}

/// A frame that is not at its end.
fn begun(pieces: &[Vec<u8>]) -> Vec<u8> {
    [&[0x00][..], &pieces.concat()].concat()
}
