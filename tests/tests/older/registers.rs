//! What a whole byte does to an older chip, and what a read is due.

use couplingnut_tests::chip::Chip;
use couplingnut_tests::generate::maps::{entries_of, map_of, set_entry};
use couplingnut_tests::generate::older::maps::{good_older_map, simple_older_map};
use couplingnut_tests::generate::older::{any_older, PARTS};
use couplingnut_tests::generate::random::Random;
use couplingnut_tests::generate::sessions::{every_setting, USABLE};
use second::older::{Older, Part};
use second::session::Session;
use second::settings::Settings;

use super::{simple_chip, AD9508, AD9557};

/// Banks in which every byte tells its place and stage.
fn filled(mut chip: Chip) -> Chip {
    let count = chip.active.len();
    chip.active = (0..count).map(|i| i as u8 | 0x40).collect();
    chip.buffer = (0..count).map(|i| i as u8 | 0xC0).collect();
    chip
}

/// The settings with one of them as a byte's bit says.
fn with(settings: Settings, one: Settings, on: bool) -> Settings {
    let all = USABLE.into_iter().chain([Settings::BUFFER_READBACK]);
    let kept = all.filter(|&other| if other == one { on } else { settings.has(other) });
    kept.fold(Settings::NONE, Settings::with)
}

#[test]
fn every_byte_written_to_0x0000() {
    for older in [AD9557, AD9508].map(|older| Older { top: 0x0020, ..older }) {
        for settings in every_setting() {
            for v in 0..=255 {
                let mut chip = filled(simple_chip(older, false));
                chip.session.settings = settings;
                let before = chip.clone();
                let reading = v & 0x40;
                assert_eq!(
                    chip.write(0x0000, &[v]),
                    [format!("W 0000 {v:02X} {reading:02X} 3 00")]
                );
                let settings = with(settings, Settings::LSB_FIRST, v & 0x40 != 0);
                let session = Session { settings, ..before.session };
                assert_eq!(chip, Chip { session, ..before }, "no bank moves");
                assert_eq!(chip.due(0x0000), reading);
            }
        }
    }
}

#[test]
fn every_byte_written_to_0x0004() {
    for settings in every_setting() {
        for v in 0..=255 {
            let mut chip = filled(simple_chip(Older { top: 0x0020, ..AD9557 }, false));
            chip.session.settings = settings;
            let before = chip.clone();
            let reading = v & 0x01;
            assert_eq!(chip.write(0x0004, &[v]), [format!("W 0004 {v:02X} {reading:02X} 3 00")]);
            let settings = with(settings, Settings::BUFFER_READBACK, v & 0x01 != 0);
            let session = Session { settings, ..before.session };
            assert_eq!(chip, Chip { session, ..before }, "no bank moves");
            assert_eq!(chip.due(0x0004), reading);
        }
    }
}

/// On the AD9508 0x0004 is a register as its entry says.
#[test]
fn on_the_ad9508_0x0004_is_an_ordinary_register() {
    let older = Older { top: 0x0020, ..AD9508 };
    for (entry, line, due) in [
        ([0, 0x00, 0x00], "W 0004 01 00 0 00", 0x00),
        ([1, 0x00, 0x5A], "W 0004 01 00 0 00", 0x5A),
        ([2, 0xFF, 0x5A], "W 0004 01 01 1 5B", 0x01),
        ([3, 0x0F, 0x5A], "W 0004 01 51 2 0B", 0x5A),
    ] {
        let mut map = simple_older_map(older);
        set_entry(&mut map, 0x0004, entry);
        let mut chip = Chip::opened_by(Some(older), &map);
        assert_eq!(chip.write(0x0004, &[0x01]), [line]);
        assert_eq!(chip.session.settings, Settings::NONE);
        assert_eq!(chip.due(0x0004), due);
    }
}

/// "A 1 in bit 0 of 0x0005 updates all buffered registers", whatever their masks, and
/// no other bank byte.
#[test]
fn every_byte_written_to_0x0005() {
    let mut random = Random::new(1);
    for part in PARTS {
        let older = Older { part, top: 0x0040 };
        let map = good_older_map(&mut random, older);
        let kinds: Vec<u8> = entries_of(&map).iter().map(|entry| entry[0]).collect();
        for v in 0..=255 {
            let mut chip = filled(Chip::opened_by(Some(older), &map));
            let before = chip.clone();
            let effect = 3 + v % 2;
            assert_eq!(chip.write(0x0005, &[v]), [format!("W 0005 {v:02X} 00 {effect} 00")]);
            let mut expected = before.clone();
            for (i, _) in kinds.iter().enumerate().filter(|(_, &kind)| kind == 3 && effect == 4) {
                expected.active[i] = before.buffer[i];
            }
            assert_eq!(chip, expected);
            assert_eq!(chip.due(0x0005), 0x00);
        }
    }
}

/// "0x0001 and 0x000F are ordinary registers": no setting, no transfer.
#[test]
fn the_newer_chips_controls_are_ordinary_registers() {
    for part in PARTS {
        let older = Older { part, top: 0x0020 };
        let mut map = simple_older_map(older);
        set_entry(&mut map, 0x0010, [3, 0xFF, 0x11]);
        for address in [0x0001, 0x000F] {
            for v in 0..=255 {
                let mut chip = filled(Chip::opened_by(Some(older), &map));
                let before = chip.clone();
                let moved = before.active[usize::from(address)] ^ v;
                let line = format!("W {address:04X} {v:02X} {v:02X} 1 {moved:02X}");
                assert_eq!(chip.write(address, &[v]), [line]);
                let mut expected = before;
                expected.touch(usize::from(address));
                expected.active[usize::from(address)] = v;
                assert_eq!(chip, expected);
                assert_eq!(chip.due(address), v);
            }
        }
    }
}

#[test]
fn the_kinds_take_a_byte_as_on_a_newer_chip() {
    for part in PARTS {
        let older = Older { part, top: 0x0014 };
        let mut map = simple_older_map(older);
        set_entry(&mut map, 0x0010, [0, 0x00, 0x00]);
        set_entry(&mut map, 0x0011, [1, 0x00, 0xA5]);
        set_entry(&mut map, 0x0012, [2, 0x0F, 0xA5]);
        set_entry(&mut map, 0x0013, [3, 0x0F, 0xA5]);
        let mut chip = Chip::opened_by(Some(older), &map);
        let lines = chip.write(0x0013, &[0x3C, 0x3C, 0x3C, 0x3C]);
        assert_eq!(
            lines,
            ["W 0013 3C AC 2 09", "W 0012 3C AC 1 09", "W 0011 3C 00 0 00", "W 0010 3C 00 0 00",]
        );
        assert_eq!(chip.active[0x0010..], [0x00, 0xA5, 0xAC, 0xA5, 0x00]);
        assert_eq!(chip.buffer[0x0010..], [0x00, 0xA5, 0xA5, 0xAC, 0x00]);
        assert_eq!(chip.write(0x0005, &[0x01]), ["W 0005 01 00 4 00"]);
        assert_eq!(chip.active[0x0010..], [0x00, 0xA5, 0xAC, 0xAC, 0x00]);
    }
}

/// "For the AD9557, bit 0 of 0x0004 set reads the buffer stage; the AD9508 reads
/// active", also with the setting in its session.
#[test]
fn the_due_byte_is_of_the_right_stage() {
    for part in PARTS {
        let older = Older { part, top: 0x0014 };
        let mut entries = entries_of(&simple_older_map(older));
        entries[0x0010..0x0014].copy_from_slice(&[[0, 0, 0], [1, 0, 9], [2, 9, 9], [3, 9, 9]]);
        for settings in every_setting() {
            let mut chip = filled(Chip::opened_by(Some(older), &map_of(&entries)));
            chip.session.settings = settings;
            let readback = settings.has(Settings::BUFFER_READBACK);
            let buffered = if part == Part::Ad9557 && readback { 0xD3 } else { 0x53 };
            let order = if settings.has(Settings::LSB_FIRST) { 0x40 } else { 0x00 };
            let bit = if part == Part::Ad9557 { u8::from(readback) } else { 0x44 };
            for (address, due) in [
                (0x0000, order),
                (0x0001, 0x41),
                (0x0004, bit),
                (0x0005, 0x00),
                (0x0010, 0x00),
                (0x0011, 0x51),
                (0x0012, 0x52),
                (0x0013, buffered),
                (0x0014, 0x54),
            ] {
                assert_eq!(chip.due(address), due, "{part:?} at {address:#06X}, {settings:?}");
            }
        }
    }
}

/// The readback counts from the byte after the one that wrote it, in the same run.
#[test]
fn readback_counts_at_once() {
    let older = Older { top: 0x0014, ..AD9557 };
    let mut map = simple_older_map(older);
    set_entry(&mut map, 0x0006, [3, 0xFF, 0x11]);
    let mut chip = Chip::opened_by(Some(older), &map);
    chip.session.settings = Settings::LSB_FIRST;
    chip.buffer[0x0006] = 0x22;
    assert_eq!(chip.due(0x0006), 0x11);
    chip.write(0x0004, &[0x01]);
    assert_eq!(chip.due(0x0006), 0x22);
    chip.write(0x0004, &[0xFE]);
    assert_eq!(chip.due(0x0006), 0x11);
    // Two stages, one after the other, by a transfer.
    assert_eq!(
        chip.write(0x0004, &[0x01, 0x01, 0x33]),
        ["W 0004 01 01 3 00", "W 0005 01 00 4 00", "W 0006 33 33 2 11",]
    );
    assert_eq!((chip.active[0x0006], chip.buffer[0x0006]), (0x22, 0x33));
    assert_eq!(chip.due(0x0006), 0x33);
}

/// Whatever is written to any register, no soft reset comes of it: with nothing
/// buffered, only the register itself changes.
#[test]
fn a_write_changes_one_register_alone() {
    let mut random = Random::new(2);
    for _ in 0..3_000 {
        let older = any_older(&mut random);
        let older = Older { top: older.top.min(0x0100), ..older };
        let mut chip = filled(Chip::opened_by(Some(older), &good_older_map(&mut random, older)));
        let before = chip.clone();
        let at = random.below(chip.active.len());
        if at == 0x0005 {
            continue;
        }
        chip.write(at as u16, &[random.byte()]);
        for i in (0..chip.active.len()).filter(|&i| i != at) {
            assert_eq!((chip.active[i], chip.buffer[i]), (before.active[i], before.buffer[i]));
        }
    }
}
