//! Opening and reading, by both sides: their numbers, what they leave alone, and
//! the edges that are easily misread.

use couplingnut_tests::both::{open, to_version_2};
use couplingnut_tests::by_hand::clocked;
use couplingnut_tests::chip::{sent, Chip};
use couplingnut_tests::generate::maps::{
    self, good_map, map_of, set_entry, simple_map, with_flags,
};
use couplingnut_tests::generate::random::Random;
use couplingnut_tests::generate::sessions::{sound_session, unsound_sessions, USABLE};
use couplingnut_tests::generate::traces::trace;
use second::reader::{most_records, RECORD};
use second::sender::Order;
use second::session::{Phase, Session, CSB, SCLK};
use second::settings::Settings;
use second::Answer;

/// A chip after some frames, and a trace that goes on from there.
fn chip_and_trace(random: &mut Random) -> (Chip, Vec<u8>) {
    let count = random.between(16, 80);
    let map = good_map(random, count);
    let mut chip = Chip::opened(&map);
    let length = random.below(600);
    chip.read(&trace(random, &map, length, true));
    let length = random.below(1_500);
    (chip, trace(random, &map, length, true))
}

fn assert_refused(chip: &Chip, samples: &[u8], room: usize, number: u8) {
    let mut after = chip.clone();
    let mut records = vec![0xEE; room];
    let answer = after.call(samples, &mut records);
    assert_eq!(answer, Answer { number, count: 0 });
    assert_eq!(&after, chip, "a refusal leaves session, banks and words");
    assert!(records.iter().all(|&byte| byte == 0xEE), "a refusal leaves the records");
}

#[test]
fn the_lowest_number_that_applies_is_given() {
    let scratch = sent(&Order { direction: 0, settings: 0, start: 10, count: 1, data: &[0x3C] });
    let order = [1, 2, 3, 4, 16, 5, 6];
    for broken in 1u8..128 {
        let breaks = |number| (0..).zip(order).any(|(i, n)| n == number && broken >> i & 1 == 1);
        let mut chip = Chip::opened(&simple_map(16));
        let mut samples = scratch.clone();
        if breaks(1) {
            chip.session.bits = 1;
        }
        if breaks(2) {
            chip.map[2] = 3;
        }
        if breaks(3) {
            set_entry(&mut chip.map, 0x000A, [2, 0x00, 0x00]);
        }
        if breaks(4) {
            chip.buffer.push(0);
        }
        if breaks(16) {
            chip.words.push(0);
        }
        if breaks(5) {
            samples[20] |= 0x10;
        }
        let room = if breaks(6) { 6 } else { 7 };
        assert_refused(&chip, &samples, room, order[broken.trailing_zeros() as usize]);
    }
}

#[test]
fn both_banks_have_to_fit() {
    let chip = Chip::opened(&simple_map(17));
    for (active, buffer) in [(16, 17), (18, 17), (17, 16), (17, 18), (16, 18), (0, 17), (17, 0)] {
        let mut other = chip.clone();
        other.active.resize(active, 0);
        other.buffer.resize(buffer, 0);
        assert_refused(&other, &[], 6, 4);
    }
}

#[test]
fn every_spare_bit_of_every_sample_is_looked_at() {
    let chip = Chip::opened(&simple_map(16));
    let good = vec![0x0F; 100];
    for at in 0..good.len() {
        for bit in 4..8 {
            let mut samples = good.clone();
            samples[at] |= 1 << bit;
            assert_refused(&chip, &samples, 600, 5);
        }
    }
    assert_refused(&chip, &vec![0x01; 65_537], 0, 5);
    let mut longest = vec![0x01; 65_536];
    assert_eq!(chip.clone().call(&longest, &mut []), Answer { number: 0, count: 0 });
    longest[65_535] = 0x81;
    assert_refused(&chip, &longest, 0, 5);
}

#[test]
fn the_room_that_is_needed_is_exact() {
    let mut random = Random::new(6);
    let mut with_records = 0;
    for _ in 0..3_000 {
        let (chip, samples) = chip_and_trace(&mut random);
        let mut whole = chip.clone();
        let mut all = vec![0; RECORD * samples.len()];
        let count = whole.call(&samples, &mut all).count;
        if count > 0 {
            with_records += 1;
            assert_refused(&chip, &samples, RECORD * count - 1, 6);
        }
        let extra = random.below(20);
        let mut exact = chip.clone();
        let mut records = vec![0xEE; RECORD * count + extra];
        assert_eq!(exact.call(&samples, &mut records), Answer { number: 0, count });
        assert_eq!(exact, whole);
        assert_eq!(records[..RECORD * count], all[..RECORD * count]);
        assert!(
            records[RECORD * count..].iter().all(|&byte| byte == 0xEE),
            "the rest is unchanged"
        );
    }
    assert!(with_records > 2_000, "only {with_records} traces had records");
}

#[test]
fn pieces_read_one_by_one_are_the_trace_read_at_once() {
    let mut random = Random::new(7);
    for _ in 0..2_000 {
        let (mut whole, samples) = chip_and_trace(&mut random);
        let mut parted = whole.clone();
        let mut lines = Vec::new();
        let mut rest = &samples[..];
        while !rest.is_empty() {
            let longest = random.pick(&[1, 20, 300]);
            let (piece, after) = rest.split_at(random.between(0, longest).min(rest.len()));
            lines.extend(parted.read(piece));
            assert!(parted.session.is_sound(), "{:?}", parted.session);
            rest = after;
        }
        assert_eq!(whole.read(&samples), lines);
        assert_eq!(whole, parted);
    }
}

#[test]
fn sound_sessions_are_read_on_and_stay_sound() {
    let mut random = Random::new(8);
    let map = simple_map(20);
    for _ in 0..5_000 {
        let mut chip = Chip::opened(&map);
        chip.session = sound_session(&mut random);
        let length = random.below(200);
        let samples: Vec<u8> = (0..length).map(|_| random.byte() & 0x0F).collect();
        let records = chip.read(&samples).len();
        assert!(records <= most_records(length), "{records} records of {length} samples");
        assert!(chip.session.is_sound(), "{:?}", chip.session);
    }
}

#[test]
fn every_condition_of_soundness_is_looked_at() {
    let rest = Session::opened();
    let data = Session { levels: 0, phase: Phase::Data, ..rest };
    // Fields of this implementation that hold more than they are meant for.
    let overfull = [
        Session { levels: CSB | 4, ..rest },
        Session { in_use: Settings::BUFFER_READBACK, ..data },
    ];
    for session in unsound_sessions().into_iter().chain(overfull) {
        let mut chip = Chip::opened(&simple_map(16));
        chip.session = session;
        assert_refused(&chip, &[], 6, 1);
    }
}

#[test]
fn opening_has_its_numbers_too() {
    let map = simple_map(17);
    let mut bad_entry = map.clone();
    set_entry(&mut bad_entry, 0x000C, [1, 0, 0x57]);
    for (map, active, buffer, number) in [
        (&map[..40], 17, 17, 2),
        (&bad_entry[..], 17, 17, 3),
        (&bad_entry[..], 16, 17, 3),
        (&map[..], 16, 17, 4),
        (&map[..], 17, 18, 4),
    ] {
        let (mut active, mut buffer) = (vec![0xAA; active], vec![0xBB; buffer]);
        let opened = open(map, &mut active, &mut buffer);
        assert_eq!(opened, (number, Session::opened()));
        assert!(active.iter().all(|&byte| byte == 0xAA), "a refusal leaves the banks");
        assert!(buffer.iter().all(|&byte| byte == 0xBB), "a refusal leaves the banks");
    }
}

#[test]
fn opening_puts_each_default_in_both_banks() {
    let mut random = Random::new(9);
    for _ in 0..200 {
        let count = random.between(16, 300);
        let map = good_map(&mut random, count);
        let (mut active, mut buffer) = (random.bytes(count), random.bytes(count));
        assert_eq!(open(&map, &mut active, &mut buffer), (0, Session::opened()));
        let defaults: Vec<u8> = (0..count).map(|i| map[maps::entry_at(&map, i) + 2]).collect();
        assert_eq!(active, defaults);
        assert_eq!(buffer, defaults);
    }
}

/// Ask 3 of document 02: without the flag, the same entries are the same registers,
/// also as the converter makes them.
#[test]
fn both_versions_are_read_as_the_same_map() {
    let mut random = Random::new(10);
    for _ in 0..500 {
        let count = random.between(16, 80);
        let map = map_of(&maps::good_entries(&mut random, count));
        let length = random.below(2_000);
        let samples = trace(&mut random, &map, length, true);
        let mut old = Chip::opened(&map);
        let lines = old.read(&samples);
        let mut made = vec![0; map.len() + 1];
        assert_eq!(to_version_2(&map, &mut made), Answer { number: 0, count: map.len() + 1 });
        assert_eq!(made, with_flags(&map, 0));
        let mut new = Chip::opened(&made);
        assert_eq!(new.read(&samples), lines);
        assert_eq!(Chip { map: map.clone(), ..new }, old);
    }
}

#[test]
fn a_new_bit_order_counts_from_the_next_instruction() {
    let mut chip = Chip::opened(&simple_map(17));
    // Ascending and LSB first to 0x0000, then down on to 0x7FFF in the old order.
    let lines = chip.write(0x0000, &[0x66, 0x12]);
    assert_eq!(lines, ["W 0000 66 66 3 00", "W 7FFF 12 00 0 00"]);
    // The next frame is lowest bit first, all sixteen bits turned, and goes up.
    let frame = [&[0x00][..], &clocked("0001 0000 0000 0000 0010 1100 1000 0000"), &[0x01]];
    assert_eq!(chip.read(&frame.concat()), ["W 0008 34 34 1 34", "W 0009 01 01 1 01"]);
}

#[test]
fn in_single_instruction_a_new_setting_counts_at_once() {
    let mut chip = Chip::opened(&simple_map(17));
    chip.write(0x0001, &[0x80]);
    let frame = [
        &[0x00][..],
        &clocked("0000 0000 0000 0000 0100 0010"),
        &clocked("0101 0000 0000 0000 1000 0000"),
        // A soft reset clears single instruction: from here on bytes stream.
        &clocked("0000 0000 0000 0000 1000 0001"),
        &clocked("0000 0000 0000 1010 0000 0111 0000 1001"),
        &[0x01],
    ];
    let lines = chip.read(&frame.concat());
    assert_eq!(lines[..2], ["W 0000 42 42 3 00", "W 000A 01 01 1 01"]);
    assert_eq!(lines[2..], ["W 0000 81 00 5 00", "W 000A 07 07 1 07", "W 0009 09 09 1 09"]);
}

/// The session is a value that the caller keeps between calls.
#[test]
fn the_session_between_two_calls() {
    let mut chip = Chip::opened(&simple_map(16));
    chip.write(0x0001, &[0xA0]);
    chip.write(0x0000, &[0x7E]);
    let in_use = USABLE.into_iter().fold(Settings::NONE, Settings::with);
    let settings = in_use.with(Settings::BUFFER_READBACK);
    let at_rest = Session { settings, ..Session::opened() };
    assert_eq!(chip.session, at_rest);

    let instruction = Session { levels: 0, phase: Phase::Instruction, in_use, ..at_rest };
    chip.read(&[0x00]);
    assert_eq!(chip.session, instruction);
    chip.read(&clocked("110"));
    assert_eq!(chip.session, Session { levels: SCLK, bits: 3, value: 0x0003, ..instruction });
    chip.read(&clocked("0000 0000 0001"));
    assert_eq!(chip.session, Session { levels: SCLK, bits: 15, value: 0x4003, ..instruction });

    let data = Session { phase: Phase::Data, address: 0x4003, read: true, ..instruction };
    chip.read(&clocked("1"));
    assert_eq!(chip.session, Session { levels: SCLK, ..data });
    // A low bit and a high one on SDO, which is in use.
    chip.read(&[0x00, 0x02, 0x08, 0x0A, 0x00]);
    assert_eq!(chip.session, Session { bits: 2, value: 0b10, ..data });
    chip.read(&[0x03]);
    assert_eq!(chip.session, Session { levels: CSB | SCLK, ..at_rest });
}

/// A sound session need not be one that any trace leads to: here the settings
/// in use are not those set. Only the former count until the next instruction.
#[test]
fn the_settings_in_use_are_the_ones_that_count() {
    let read = |in_use, settings| {
        let mut chip = Chip::opened(&simple_map(16));
        chip.session = Session {
            levels: 0,
            phase: Phase::Data,
            address: 0x000C,
            read: true,
            settings,
            in_use,
            ..Session::opened()
        };
        // SDIO brings 0x0A and SDO 0x50, highest bit first; then three bits more.
        let lines: Vec<u8> =
            [0, 8, 0, 8, 4, 0, 4, 0, 0, 0, 0].into_iter().flat_map(|l| [l, l + 2]).collect();
        chip.read(&[&lines[..], &[0x01]].concat())
    };
    for (one, expected) in [
        (Settings::NONE, ["R 000C 56 0A 1 00", "C 000B 03 01 0 00"]),
        (Settings::LSB_FIRST, ["R 000C 56 50 1 00", "C 000B 03 01 0 00"]),
        (Settings::ASCENDING, ["R 000C 56 0A 1 00", "C 000D 03 01 0 00"]),
        (Settings::SDO_ACTIVE, ["R 000C 56 50 1 00", "C 000B 03 01 0 00"]),
        (Settings::SINGLE_INSTRUCTION, ["R 000C 56 0A 1 00", "C 0000 03 00 0 00"]),
    ] {
        assert_eq!(read(one, Settings::NONE), expected, "{one:?} in use");
        assert_eq!(
            read(Settings::NONE, one),
            ["R 000C 56 0A 1 00", "C 000B 03 01 0 00"],
            "{one:?} set"
        );
    }
}

#[test]
fn no_bit_is_taken_when_csb_moves_with_the_clock() {
    let fifteen = clocked("0000 0000 0000 101");
    let mut chip = Chip::opened(&simple_map(16));
    // Both rise together after fifteen bits.
    let rising = [&[0x00][..], &fifteen, &[0x00, 0x03]].concat();
    assert_eq!(chip.read(&rising), ["C 0000 0F 00 0 00"]);
    // The clock was high at rest and is high after CSB fell; then one bit.
    assert_eq!(chip.read(&[0x02, 0x00, 0x02, 0x01]), ["C 0000 01 00 0 00"]);
    // CSB falls as the clock rises: no bit, and no second edge without a low.
    assert_eq!(chip.read(&[0x01, 0x02, 0x06, 0x01]), [""; 0]);
    assert_eq!(chip.read(&[0x02, 0x01]), [""; 0]);
}

#[test]
fn a_transfer_leaves_plain_registers_alone() {
    let mut map = simple_map(20);
    set_entry(&mut map, 0x0010, [3, 0x0F, 0x11]);
    set_entry(&mut map, 0x0011, [1, 0x00, 0x33]);
    let mut chip = Chip::opened(&map);
    chip.buffer = (100..120).collect();
    let before = chip.active.clone();
    assert_eq!(chip.write(0x000F, &[0xFE]), ["W 000F FE 00 3 00"]);
    assert_eq!(chip.active, before);
    assert_eq!(chip.write(0x000F, &[0x03]), ["W 000F 03 00 4 00"]);
    let mut expected = before;
    expected[0x0010] = 116;
    assert_eq!(chip.active, expected);
    assert_eq!(chip.buffer, (100..120).collect::<Vec<u8>>());
}

#[test]
fn a_broken_byte_is_not_written_even_if_its_bits_match() {
    let mut chip = Chip::opened(&simple_map(16));
    chip.write(0x000A, &[0x55]);
    let before = chip.clone();
    let broken = [&[0x00][..], &clocked("0000 0000 0000 1010 0101 010"), &[0x01]].concat();
    assert_eq!(chip.read(&broken), ["C 000A 07 01 0 00"]);
    assert_eq!(chip, before);
}

#[test]
fn a_cut_names_the_address_that_the_run_had_reached() {
    let mut chip = Chip::opened(&simple_map(17));
    let frame = [&[0x00][..], &clocked("0000 0000 0000 1001 0000 0001 11"), &[0x01]].concat();
    assert_eq!(chip.read(&frame), ["W 0009 01 01 1 01", "C 0008 02 01 0 00"]);
}
