//! When a session is armed, and when no longer.

use couplingnut_tests::chip::Chip;
use couplingnut_tests::generate::maps::map_of;
use couplingnut_tests::generate::sessions::{armed_pieces, every_piece, with_every_setting};
use second::reader::RECORD;
use second::session::{Phase, Session};
use second::settings::Settings;
use second::Answer;

use super::{
    begun, byte, chip_of, flagged_chip, frame, map_with, moved, single_chip, write_to, BUFFERED,
    COUNT,
};

/// The map without the flag, in both versions.
fn unflagged() -> [Vec<u8>; 2] {
    let map = map_with(0);
    [map_of(map[6..].as_chunks().0), map]
}

/// A session in data, before the last bit of a byte.
fn before_last_bit(v: u8, address: u16) -> Session {
    let value = u16::from(v >> 1);
    Session { levels: 0, phase: Phase::Data, bits: 7, value, address, ..Session::opened() }
}

/// The sample that gives this byte its last bit.
fn last_bit(v: u8) -> u8 {
    4 * (v & 1) + 2
}

/// What a whole byte makes of the mark, as the table has it: every register, with
/// and without the flag, read and written, armed before and not.
#[test]
fn the_mark_after_a_whole_byte_is_by_the_table() {
    let [first, second] = unflagged();
    for (map, is_flagged) in [(map_with(1), true), (first, false), (second, false)] {
        let chip = chip_of(&map);
        for (address, v) in every_register_with_bytes() {
            for session in ways_to_a_byte(v, address) {
                let mut after = Chip { session, ..chip.clone() };
                assert_eq!(after.read(&[last_bit(v)]).len(), 1);
                let resets = address == 0 && [0x81, 0xA5, 0xFF].contains(&v);
                let buffered = BUFFERED.contains(&usize::from(address));
                let expected = match session.read {
                    false if resets => false,
                    false if buffered && is_flagged => true,
                    _ => session.armed,
                };
                assert_eq!(after.session.armed, expected, "{v:02X} in {session:?}");
            }
        }
    }
}

/// Every register of the map, and some beyond it, with bytes for each.
fn every_register_with_bytes() -> impl Iterator<Item = (u16, u8)> {
    let addresses = (0..=COUNT as u16).chain([0x7FFF]);
    let bytes = [0x00, 0x01, 0x18, 0x40, 0x80, 0x81, 0xA5, 0xFF];
    addresses.flat_map(move |address| bytes.map(|v| (address, v)))
}

/// Sessions before the last bit of this byte: written and read, armed and not,
/// streaming and in single instruction.
fn ways_to_a_byte(v: u8, address: u16) -> impl Iterator<Item = Session> {
    (0..8).map(move |choice| {
        let single = Settings::SINGLE_INSTRUCTION;
        let in_use = if choice & 4 == 4 { single } else { Settings::NONE };
        let (read, armed) = (choice & 1 == 1, choice & 2 == 2);
        Session { read, armed, in_use, ..before_last_bit(v, address) }
    })
}

/// A written transfer leaves the session armed: what somebody else puts in the buffer
/// bank before the rise moves too. Alone it doesn't arm.
#[test]
fn a_written_transfer_leaves_the_mark() {
    let transfer = [write_to(0x000F), byte(0x01)];
    for buffered in [false, true] {
        let mut chip = single_chip();
        let write = [write_to(0x0010), byte(0x5A)];
        let pieces = if buffered { [&write[..], &transfer].concat() } else { transfer.to_vec() };
        chip.read(&begun(&pieces));
        let transferred = chip.active.clone();
        assert_eq!(transferred, moved(&chip));
        assert_eq!(chip.session.armed, buffered);
        chip.buffer.fill(0xEE);
        let expected = if buffered { moved(&chip) } else { transferred };
        chip.read(&[0x00, 0x01]);
        assert_eq!(chip.active, expected);
        assert!(!chip.session.armed);
    }
    // The same in one run, down from 0x0010.
    let mut chip = flagged_chip();
    let lines = chip.read(&begun(&[write_to(0x0010), byte(0x5A), byte(0x01)]));
    assert_eq!(lines, ["W 0010 5A 5A 2 0A", "W 000F 01 00 4 00"]);
    assert!(chip.session.armed);
}

/// Every byte to 0x0000, with the flag and without it: a reset alone disarms.
#[test]
fn a_soft_reset_disarms_and_no_other_byte_does() {
    let [first, second] = unflagged();
    for map in [map_with(1), first, second] {
        let chip = chip_of(&map);
        let mut disarmed = Vec::new();
        for v in 0..=255 {
            let mut chip = chip.clone();
            chip.session = Session { armed: true, ..before_last_bit(v, 0x0000) };
            chip.read(&[last_bit(v)]);
            if !chip.session.armed {
                disarmed.push(v);
                // What is in the buffer bank by another hand stays there.
                let active = chip.active.clone();
                chip.buffer.fill(0xEE);
                chip.read(&[0x01]);
                assert_eq!(chip.active, active);
            }
        }
        assert_eq!(disarmed, [0x81, 0x99, 0xA5, 0xBD, 0xC3, 0xDB, 0xE7, 0xFF]);
    }
}

/// A buffered write after the reset arms again, in the same frame.
#[test]
fn a_byte_after_a_soft_reset_arms_again() {
    let mut chip = single_chip();
    let pieces = [write_to(0x0010), byte(0x5A), write_to(0x0000), byte(0x81)];
    chip.read(&begun(&pieces));
    assert!(!chip.session.armed);
    // Streaming from here on: the reset has turned single instruction off.
    chip.read(&[write_to(0x0011), byte(0xA5)].concat());
    assert!(chip.session.armed);
    assert_eq!((chip.active[0x0011], chip.buffer[0x0011]), (0x22, 0x25));
    chip.read(&[0x00, 0x01]);
    assert_eq!((chip.active[0x0011], chip.active[0x0010]), (0x25, 0x11));
    assert_eq!(chip.session, Session::opened());
}

/// An armed session may come to a map without the flag: it is sound, nothing moves,
/// and the end of the frame disarms it. With the flag, the same end moves.
#[test]
fn the_mark_with_another_map() {
    let [first, second] = unflagged();
    for (map, is_flagged) in [(first, false), (second, false), (map_with(1), true)] {
        let chip = chip_of(&map);
        for session in armed_pieces(&every_piece()[1..]).into_iter().flat_map(with_every_setting) {
            let mut armed = Chip { session, ..chip.clone() };
            let mut records = [0; RECORD];
            let count = usize::from(session.bits > 0);
            assert_eq!(armed.call(&[0x00], &mut records), Answer { number: 0, count: 0 });
            assert!(armed.session.armed, "{session:?}");
            assert_eq!(armed.call(&[0x01], &mut records), Answer { number: 0, count });
            let Session { settings, .. } = session;
            assert_eq!(armed.session, Session { settings, ..Session::opened() });
            let expected = if is_flagged { moved(&chip) } else { chip.active.clone() };
            assert_eq!((&armed.active, &armed.buffer), (&expected, &chip.buffer), "{session:?}");
        }
    }
}

/// Without the flag no byte arms, and none disarms but a reset.
#[test]
fn a_map_without_the_flag_never_arms() {
    for map in unflagged() {
        let mut chip = chip_of(&map);
        let before = chip.active.clone();
        for &sample in &frame(&[write_to(0x0012), byte(0xFF), byte(0x12), byte(0x34)]) {
            chip.read(&[sample]);
            assert!(!chip.session.armed);
        }
        assert_eq!(chip.active, before);
        assert_eq!((chip.buffer[0x0011], chip.buffer[0x0010]), (0x52, 0x34));
    }
}
