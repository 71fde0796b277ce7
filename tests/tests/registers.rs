//! What a whole byte does, by both sides: writes, the control registers, and the
//! byte that a read is due.

use couplingnut_tests::chip::{sent, Chip};
use couplingnut_tests::generate::maps::{set_entry, simple_map};
use couplingnut_tests::generate::random::Random;
use second::sender::Order;
use second::settings::Settings;

/// A chip of 17 registers with this one at 0x0010.
fn chip_with(entry: [u8; 3]) -> Chip {
    let mut map = simple_map(17);
    set_entry(&mut map, 0x0010, entry);
    Chip::opened(&map)
}

fn bit(byte: u8, place: u8) -> bool {
    byte >> place & 1 == 1
}

#[test]
fn a_write_changes_the_masked_bits_of_its_stage() {
    let mut random = Random::new(1);
    for mask in 0..=255 {
        for kind in [2, 3] {
            let mut chip = chip_with([kind, mask, random.byte()]);
            (chip.active[16], chip.buffer[16]) = (random.byte(), random.byte());
            let mut before = chip.clone();
            let v = random.byte();
            let lines = chip.write(0x0010, &[v]);

            let (old, new) = match kind {
                2 => (before.active[16], chip.active[16]),
                _ => (before.buffer[16], chip.buffer[16]),
            };
            let mut moved = 0;
            for place in 0..8 {
                let from = if bit(mask, place) { v } else { old };
                assert_eq!(bit(new, place), bit(from, place), "mask {mask:#04X}, bit {place}");
                moved += u8::from(bit(new, place) != bit(old, place)) << place;
            }
            let effect = kind - 1;
            assert_eq!(lines, [format!("W 0010 {v:02X} {new:02X} {effect} {moved:02X}")]);

            // Nothing else changed, and the register is touched.
            before.touch(0x0010);
            match kind {
                2 => chip.active[16] = old,
                _ => chip.buffer[16] = old,
            }
            assert_eq!(chip, before);
        }
    }
}

/// Ask 8 of document 02, by hand: kind, mask, active byte, buffer byte, what is
/// written, and the line. The old byte is that of the stage written.
#[test]
fn a_write_tells_the_bits_that_moved() {
    for ([kind, mask, active, buffer, v], line) in [
        ([2, 0xFF, 0x00, 0xFF, 0x3C], "W 0010 3C 3C 1 3C"),
        ([2, 0xFF, 0x3C, 0x00, 0x3C], "W 0010 3C 3C 1 00"),
        ([2, 0xFF, 0xF0, 0x00, 0x0F], "W 0010 0F 0F 1 FF"),
        ([2, 0x0F, 0xA5, 0x00, 0x3C], "W 0010 3C AC 1 09"),
        ([2, 0x00, 0xA5, 0x00, 0x5A], "W 0010 5A A5 1 00"),
        ([2, 0x81, 0x00, 0x00, 0xFF], "W 0010 FF 81 1 81"),
        ([3, 0xFF, 0x00, 0x11, 0x22], "W 0010 22 22 2 33"),
        ([3, 0xFF, 0x11, 0x22, 0x22], "W 0010 22 22 2 00"),
        ([3, 0xF0, 0xFF, 0x0A, 0x85], "W 0010 85 8A 2 80"),
        ([1, 0x00, 0x0F, 0xF0, 0xFF], "W 0010 FF 00 0 00"),
    ] {
        let mut chip = chip_with([kind, mask, 0x00]);
        (chip.active[16], chip.buffer[16]) = (active, buffer);
        assert_eq!(chip.write(0x0010, &[v]), [line]);
        // Once more, and nothing moves.
        let still = format!("{} 00", &line[..14]);
        assert_eq!(chip.write(0x0010, &[v]), [still]);
    }
}

/// Control registers show none, whatever settings and registers they move.
#[test]
fn control_writes_tell_no_moved_bits() {
    let mut chip = chip_with([3, 0xFF, 0x11]);
    assert_eq!(chip.write(0x0010, &[0x22]), ["W 0010 22 22 2 33"]);
    assert_eq!(chip.write(0x000F, &[0x01]), ["W 000F 01 00 4 00"]);
    assert_eq!(chip.active[16], 0x22);
    assert_eq!(chip.write(0x0001, &[0x20]), ["W 0001 20 20 3 00"]);
    assert_eq!(chip.write(0x0000, &[0x42]), ["W 0000 42 42 3 00"]);
    assert_eq!(chip.write(0x0000, &[0x81]), ["W 0000 81 00 5 00"]);
    assert_eq!((chip.active[16], chip.buffer[16]), (0x11, 0x11));
}

#[test]
fn blank_read_only_and_absent_registers_take_nothing() {
    for entry in [[0, 0, 0], [1, 0, 0x77]] {
        let mut chip = chip_with(entry);
        let before = chip.clone();
        assert_eq!(chip.write(0x0010, &[0xFF]), ["W 0010 FF 00 0 00"]);
        assert_eq!(chip.write(0x0011, &[0xFF]), ["W 0011 FF 00 0 00"]);
        assert_eq!(chip.write(0x7FFF, &[0xFF]), ["W 7FFF FF 00 0 00"]);
        assert_eq!(chip, before);
    }
}

/// The bytes that read the same from both ends.
const MIRRORS: [u8; 16] = [
    0b0000_0000,
    0b0001_1000,
    0b0010_0100,
    0b0011_1100,
    0b0100_0010,
    0b0101_1010,
    0b0110_0110,
    0b0111_1110,
    0b1000_0001,
    0b1001_1001,
    0b1010_0101,
    0b1011_1101,
    0b1100_0011,
    0b1101_1011,
    0b1110_0111,
    0b1111_1111,
];

/// The settings that 0x0000 and 0x0001 hold when they read so.
fn settings_read_as(a: u8, b: u8) -> Settings {
    let named = [
        (bit(a, 6), Settings::LSB_FIRST),
        (bit(a, 5), Settings::ASCENDING),
        (bit(a, 4), Settings::SDO_ACTIVE),
        (bit(b, 7), Settings::SINGLE_INSTRUCTION),
        (bit(b, 5), Settings::BUFFER_READBACK),
    ];
    let set = named.into_iter().filter(|(is_set, _)| *is_set);
    set.fold(Settings::NONE, |sum, (_, one)| sum.with(one))
}

/// Readings of 0x0000 and 0x0001, one pair for each combination of settings.
fn every_pair_of_readings() -> impl Iterator<Item = (u8, u8)> {
    let b = [0x00, 0x20, 0x80, 0xA0];
    MIRRORS[..8].iter().flat_map(move |&a| b.map(|b| (a, b)))
}

/// All bytes from every combination of settings, with banks that a reset changes.
#[test]
fn every_byte_written_to_0x0000() {
    let mut map = simple_map(17);
    set_entry(&mut map, 0x0010, [3, 0xFF, 0x11]);
    let fresh = Chip::opened(&map);
    for (a, b) in every_pair_of_readings() {
        let mut before = fresh.clone();
        before.session.settings = settings_read_as(a, b);
        before.active = (100..117).collect();
        before.buffer = (200..217).collect();
        for v in 0..=255 {
            let mut chip = before.clone();
            let lines = chip.write(0x0000, &[v]);
            let mut expected = before.clone();
            let (reading, effect) = match (MIRRORS.contains(&v), bit(v, 7)) {
                (false, _) => (a, 0),
                (true, false) => (v, 3),
                (true, true) => (v - 0x81, 5),
            };
            match effect {
                0 => {}
                3 => expected.session.settings = settings_read_as(v, b),
                _ => {
                    expected = fresh.clone();
                    expected.session.settings = settings_read_as(v, 0x00);
                }
            }
            let from = format!("{v:#04X} after {a:#04X} and {b:#04X}");
            assert_eq!(lines, [format!("W 0000 {v:02X} {reading:02X} {effect} 00")], "{from}");
            assert_eq!(chip, expected, "{from}");
        }
    }
}

/// What 0x0000 and 0x0001 hold is what they read, from every combination.
#[test]
fn the_configuration_registers_read_as_the_settings() {
    for (a, b) in every_pair_of_readings() {
        let mut chip = Chip::opened(&simple_map(16));
        chip.session.settings = settings_read_as(a, b);
        assert_eq!((chip.due(0x0000), chip.due(0x0001)), (a, b));
    }
}

/// Ask 2 of document 02: halves that disagree change nothing, also where the
/// byte names settings that are set, or half a reset.
#[test]
fn halves_of_0x0000_that_disagree_change_nothing() {
    let mut chip = Chip::opened(&simple_map(16));
    assert_eq!(chip.write(0x0000, &[0x40]), ["W 0000 40 00 0 00"]);
    chip.write(0x000A, &[0x33]);
    chip.write(0x0001, &[0x20]);
    assert_eq!(chip.write(0x0000, &[0x42]), ["W 0000 42 42 3 00"]);
    let before = chip.clone();
    for (v, line) in [
        (0x40, "W 0000 40 42 0 00"),
        (0x02, "W 0000 02 42 0 00"),
        (0x80, "W 0000 80 42 0 00"),
        (0x01, "W 0000 01 42 0 00"),
        (0xC1, "W 0000 C1 42 0 00"),
        (0x83, "W 0000 83 42 0 00"),
        (0x41, "W 0000 41 42 0 00"),
    ] {
        assert_eq!(chip.write(0x0000, &[v]), [line]);
        assert_eq!(chip, before);
    }
    assert_eq!(chip.write(0x0000, &[0xC3]), ["W 0000 C3 42 5 00"]);
    assert_eq!(chip.active[0x000A], 0x00);
    assert_eq!(chip.session.settings, Settings::LSB_FIRST);
}

/// In single instruction the next instruction takes the settings as they stand.
#[test]
fn a_half_written_on_the_way_leaves_the_bit_order() {
    let mut chip = Chip::opened(&simple_map(16));
    chip.write(0x0001, &[0x80]);
    let inner = |start, v: u8| {
        let samples = sent(&Order { direction: 0, settings: 4, start, count: 1, data: &[v] });
        samples[1..samples.len() - 2].to_vec()
    };
    let frame = [vec![0x00], inner(0x0000, 0x40), inner(0x000A, 0x35), vec![0x01]].concat();
    assert_eq!(chip.read(&frame), ["W 0000 40 00 0 00", "W 000A 35 35 1 35"]);
}

#[test]
fn every_byte_written_to_0x0001() {
    for v in 0..=255 {
        let mut chip = Chip::opened(&simple_map(16));
        chip.write(0x0000, &[0x5A]);
        let before = chip.clone();
        // The record shows the byte as given; bit 4 is no setting (Ask 9).
        let reading = v & 0b1010_0000;
        assert_eq!(chip.write(0x0001, &[v]), [format!("W 0001 {v:02X} {reading:02X} 3 00")]);
        assert_eq!(chip.session.settings.has(Settings::SINGLE_INSTRUCTION), bit(v, 7));
        assert_eq!(chip.session.settings.has(Settings::BUFFER_READBACK), bit(v, 5));
        assert_eq!(chip.session.settings, settings_read_as(0x5A, reading));
        assert_eq!(chip.due(0x0001), reading);
        assert_eq!(chip.due(0x0000), 0x5A);
        assert_eq!((&chip.active, &chip.buffer), (&before.active, &before.buffer));
    }
}

#[test]
fn the_due_byte_is_of_the_right_stage() {
    for readback in [false, true] {
        let mut map = simple_map(20);
        for (address, kind) in [(0x0010, 0), (0x0011, 1), (0x0012, 2), (0x0013, 3)] {
            set_entry(&mut map, address, [kind, 0, 0]);
        }
        let mut chip = Chip::opened(&map);
        chip.active.fill(0xAC);
        chip.buffer.fill(0xBF);
        if readback {
            chip.write(0x0001, &[0x20]);
        }
        assert_eq!(chip.due(0x0010), 0x00);
        assert_eq!(chip.due(0x0011), 0xAC);
        assert_eq!(chip.due(0x0012), 0xAC);
        assert_eq!(chip.due(0x0013), if readback { 0xBF } else { 0xAC });
        assert_eq!(chip.due(0x0014), 0x00);
        assert_eq!(chip.due(0x7FFF), 0x00);
        // Bank bytes of control registers never serve a reading.
        assert_eq!(chip.due(0x0000), 0x00);
        assert_eq!(chip.due(0x0001), if readback { 0x20 } else { 0x00 });
        assert_eq!(chip.due(0x000F), 0x00);
    }
}

/// A read of one byte with this on SDIO and that on SDO while it lasts.
fn read_frame(address: u64, sdio: u8, sdo: u8) -> Vec<u8> {
    let mut samples =
        sent(&Order { direction: 1, settings: 0, start: address, count: 1, data: &[] });
    for (i, sample) in samples[33..49].iter_mut().enumerate() {
        let place = 7 - (i / 2) as u8;
        *sample |= u8::from(bit(sdio, place)) << 2 | u8::from(bit(sdo, place)) << 3;
    }
    // SDO says nothing in an instruction.
    samples[1..33].iter_mut().for_each(|sample| *sample |= 8);
    samples
}

#[test]
fn read_data_comes_from_the_line_in_use() {
    let mut chip = Chip::opened(&simple_map(16));
    assert_eq!(chip.read(&read_frame(0x000C, 0x56, 0xFF)), ["R 000C 56 56 0 00"]);
    assert_eq!(chip.read(&read_frame(0x000C, 0x57, 0x56)), ["R 000C 56 57 1 00"]);
    chip.write(0x0000, &[0x18]);
    let before = chip.clone();
    assert_eq!(chip.read(&read_frame(0x000C, 0x57, 0x56)), ["R 000C 56 56 0 00"]);
    assert_eq!(chip.read(&read_frame(0x000C, 0x56, 0xD6)), ["R 000C 56 D6 1 00"]);
    assert_eq!(chip.read(&read_frame(0x0000, 0x00, 0x18)), ["R 0000 18 18 0 00"]);
    assert_eq!(chip, before, "a read changes no register");
    // Writes come from SDIO all the same.
    assert_eq!(chip.write(0x000A, &[0x99]), ["W 000A 99 99 1 99"]);
}

#[test]
fn buffer_readback_counts_at_once() {
    let mut map = simple_map(17);
    set_entry(&mut map, 0x0010, [3, 0xFF, 0x11]);
    let mut chip = Chip::opened(&map);
    chip.write(0x0010, &[0x22]);
    chip.write(0x0001, &[0x80]);
    // In one frame: readback on, a read, readback off, a read.
    let writes =
        |v: u8| sent(&Order { direction: 0, settings: 4, start: 0x0001, count: 1, data: &[v] });
    let read = sent(&Order { direction: 1, settings: 4, start: 0x0010, count: 1, data: &[] });
    let inner = |samples: Vec<u8>| samples[1..samples.len() - 2].to_vec();
    let frame = [
        vec![0x00],
        inner(writes(0xA0)),
        inner(read.clone()),
        inner(writes(0x80)),
        inner(read),
        vec![0x01],
    ];
    let lines =
        ["W 0001 A0 A0 3 00", "R 0010 22 00 1 00", "W 0001 80 80 3 00", "R 0010 11 00 1 00"];
    assert_eq!(chip.read(&frame.concat()), lines);
}

#[test]
fn a_soft_reset_on_the_way_leaves_the_run_as_it_began() {
    let mut map = simple_map(17);
    set_entry(&mut map, 0x0010, [2, 0xFF, 0x11]);
    let mut chip = Chip::opened(&map);
    chip.write(0x0010, &[0x22]);
    chip.write(0x0000, &[0x66]);
    // Lowest bit first and up, through 0x7FFF, a reset that clears both, and on.
    let lines = chip.write(0x7FFF, &[0x01, 0x81, 0x20, 0x35]);
    let expected =
        ["W 7FFF 01 00 0 00", "W 0000 81 00 5 00", "W 0001 20 20 3 00", "W 0002 35 35 1 35"];
    assert_eq!(lines, expected);
    assert_eq!(chip.active[0x0010], 0x11);
    assert_eq!(chip.session.settings, Settings::BUFFER_READBACK);
}
