//! What the end of a frame moves, and when.

use couplingnut_tests::chip::{sent, Chip};
use couplingnut_tests::generate::maps::{good_map, set_entry, simple_map, with_flags};
use couplingnut_tests::generate::random::Random;
use couplingnut_tests::generate::traces::trace;
use second::reader::{most_records, READ, RECORD};
use second::sender::Order;
use second::session::{Session, CSB, SCLK};
use second::Answer;

use super::{
    begun, byte, flagged_chip, frame, moved, number, read_from, single_chip, write_to, BUFFERED,
};

#[test]
fn the_end_of_a_frame_moves_every_buffered_register() {
    for (address, v, written, lines) in [
        (0x0010, 0x5A, 0x5A, "W 0010 5A 5A 2 0A"),
        (0x0011, 0xA5, 0x55, "W 0011 A5 55 2 04"),
        // No bit may be written, and none that is written moves.
        (0x0012, 0xFF, 0x52, "W 0012 FF 52 2 00"),
        (0x0016, 0x56, 0x56, "W 0016 56 56 2 00"),
    ] {
        for raise in (0x00..0x10).filter(|level| level & CSB != 0) {
            let mut chip = flagged_chip();
            let mut expected = chip.clone();
            expected.touch(usize::from(address));
            expected.buffer[usize::from(address)] = written;
            expected.active = moved(&expected);
            expected.session.levels = raise & (CSB | SCLK);
            let samples = [begun(&[write_to(address), byte(v)]), vec![raise]].concat();
            assert_eq!(chip.read(&samples), [lines]);
            assert_eq!(chip, expected, "{address:#06X}");
        }
    }
}

/// Armed from the sample that makes the byte whole; moved in the one of the rise.
#[test]
fn the_move_comes_with_the_rise_and_not_before() {
    let samples = sent(&Order { direction: 0, settings: 0, start: 16, count: 1, data: &[0x5A] });
    let mut chip = flagged_chip();
    let before = chip.clone();
    let mut after = Chip { session: Session::opened(), ..chip.clone() };
    after.touch(0x0010);
    after.buffer[0x0010] = 0x5A;
    after.active = moved(&after);
    for (sent, &sample) in (1..).zip(&samples) {
        chip.read(&[sample]);
        assert_eq!(chip.session.armed, (49..51).contains(&sent), "after {sent} samples");
        let active = if sent == 51 { &after.active } else { &before.active };
        assert_eq!(&chip.active, active, "after {sent} samples");
    }
    assert_eq!(chip, after);
    // At rest nothing moves, also if somebody else writes the buffer bank.
    chip.buffer.fill(0xEE);
    let active = chip.active.clone();
    chip.read(&[0x03, 0x01, 0x0F, 0x00, 0x01]);
    assert_eq!(chip.active, active);
}

/// Frames without a whole byte to a buffered register.
fn idle_frames() -> Vec<Vec<u8>> {
    let plain = [0x000A, 0x0013, 0x0014, 0x0015, 0x0017, 0x0018, 0x7FFF];
    let control = [(0x0000, 0x40), (0x0000, 0x18), (0x0001, 0x20), (0x000F, 0x00), (0x000F, 0xFE)];
    let mut frames = vec![frame(&[]), frame(&[write_to(0x0010)]), frame(&[read_from(0x0010)])];
    frames.extend(plain.map(|address| frame(&[write_to(address), byte(0x12)])));
    frames.extend(control.map(|(address, v)| frame(&[write_to(address), byte(v)])));
    frames.extend(BUFFERED.map(|address| frame(&[read_from(address as u16), byte(0x12)])));
    frames.push(frame(&[read_from(0x0017), byte(0).repeat(8)]));
    // The byte of a buffered register broken off, and the instruction for it.
    frames.extend((1..8).map(|bits| frame(&[write_to(0x0010), number(0, bits)])));
    frames.extend((1..16).map(|bits| frame(&[number(0, bits)])));
    frames
}

#[test]
fn nothing_moves_without_a_byte_to_a_buffered_register() {
    for samples in idle_frames() {
        let mut chip = flagged_chip();
        let before = chip.clone();
        for &sample in &samples {
            chip.read(&[sample]);
            assert!(!chip.session.armed, "{samples:02X?}");
        }
        assert_eq!(chip.buffer, before.buffer);
        for at in BUFFERED {
            assert_eq!(chip.active[at], before.active[at], "{samples:02X?}");
        }
        // Nor does a frame before it count.
        let mut again = flagged_chip();
        again.read(&frame(&[write_to(0x0010), byte(0x5A)]));
        again.buffer.clone_from(&before.buffer);
        let active = again.active.clone();
        again.read(&samples);
        assert_eq!(again.active[0x0010], active[0x0010], "{samples:02X?}");
    }
}

/// The cut is recorded as ever, and the bytes move all the same.
#[test]
fn the_rise_may_break_off_a_byte_or_an_instruction() {
    for (chip, most, address, in_data) in
        [(flagged_chip(), 7, "000F", 1), (single_chip(), 15, "0000", 0)]
    {
        for bits in 0..=most {
            let mut broken = chip.clone();
            let pieces = [write_to(0x0010), byte(0x5A), number(0x5555, bits)];
            let lines = broken.read(&[begun(&pieces), vec![0x03]].concat());
            let cut = format!("C {address} {bits:02X} {in_data:02X} 0 00");
            let cuts = if bits == 0 { vec![] } else { vec![cut] };
            assert_eq!(lines[0], "W 0010 5A 5A 2 0A");
            assert_eq!(lines[1..], cuts);
            let mut expected = chip.clone();
            expected.touch(0x0010);
            expected.buffer[0x0010] = 0x5A;
            expected.active = moved(&expected);
            expected.session.levels = CSB | SCLK;
            assert_eq!(broken, expected, "{bits} bits");
        }
    }
}

/// The records of these samples, and the chip after them, with exactly the room
/// that they need; a byte less is number 6.
fn read_exactly(chip: &mut Chip, samples: &[u8]) -> Vec<[u8; RECORD]> {
    let mut ample = vec![0; RECORD * most_records(samples.len())];
    let count = chip.clone().call(samples, &mut ample).count;
    let room = &mut ample[..RECORD * count];
    if let Some(short) = room.len().checked_sub(1) {
        assert_eq!(chip.clone().call(samples, &mut room[..short]).number, 6);
    }
    assert_eq!(chip.call(samples, room), Answer { number: 0, count });
    room.as_chunks().0.to_vec()
}

/// The move is no record: with and without the flag there are the same, in the same
/// room, but for the byte that is due of a buffered register.
#[test]
fn records_and_their_room_are_the_same_without_the_flag() {
    let mut random = Random::new(2);
    let (mut others, mut moves) = (0, 0);
    for _ in 0..3_000 {
        let count = random.between(16, 60);
        let map = good_map(&mut random, count);
        let length = random.below(1_500);
        let samples = trace(&mut random, &map, length, true);
        let [mut without, mut with] = [0, 1].map(|flags| Chip::opened(&with_flags(&map, flags)));
        let kind_of = |r: &[u8; RECORD]| {
            let address = u16::from_be_bytes([r[1], r[2]]);
            with_flags(&map, 0).get(6 + 3 * usize::from(address)).copied()
        };
        let (first, second) =
            (read_exactly(&mut without, &samples), read_exactly(&mut with, &samples));
        assert_eq!(first.len(), second.len());
        for (first, second) in first.iter().zip(&second).filter(|(first, second)| first != second) {
            assert_eq!((first[0], kind_of(first)), (READ, Some(3)), "{first:02X?}, {second:02X?}");
            assert_eq!((&first[..3], first[4]), (&second[..3], second[4]));
            others += 1;
        }
        assert_eq!(without.buffer, with.buffer);
        let armed = with.session.armed;
        assert_eq!(Session { armed, ..without.session }, with.session);
        moves += usize::from(without.active != with.active);
    }
    assert!(others > 50 && moves > 500, "{others} reads and {moves} chips differ");
}

/// Every register buffered, up to the last of the largest map.
#[test]
fn the_largest_map_moves_whole() {
    let mut map = with_flags(&simple_map(8_192), 1);
    for address in 0x0010..8_192 {
        set_entry(&mut map, address, [3, 0x00, 0x00]);
    }
    let mut random = Random::new(3);
    for address in [0x0010, 0x0FFF, 0x1FFF] {
        let mut chip = Chip::opened(&map);
        chip.active = random.bytes(8_192);
        chip.buffer = random.bytes(8_192);
        let expected = [&chip.active[..0x0010], &chip.buffer[0x0010..]].concat();
        chip.read(&frame(&[write_to(address), byte(0x5A)]));
        assert_eq!(chip.active, expected);
    }
}
