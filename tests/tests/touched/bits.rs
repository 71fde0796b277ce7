//! What sets a bit, and what leaves it, by hand and along runs.

use couplingnut_tests::chip::{sent, Chip};
use couplingnut_tests::generate::maps::{good_map, set_entry, simple_map, with_flags};
use couplingnut_tests::generate::older::maps::{good_older_map, simple_older_map};
use couplingnut_tests::generate::older::traces::older_trace;
use couplingnut_tests::generate::older::PARTS;
use couplingnut_tests::generate::random::Random;
use couplingnut_tests::generate::traces::trace;
use couplingnut_tests::generate::words::{any_words, some_words};
use second::older::{Older, Part};
use second::sender::Order;
use second::session::CSB;

use super::{chips_of, set_in, SIZES};

/// The registers from 0x0010 on: every kind, with all bits writable, some and none.
const ENTRIES: [[u8; 3]; 6] = [
    [0, 0x00, 0x00],
    [1, 0x00, 0x55],
    [2, 0xFF, 0x11],
    [2, 0x00, 0x22],
    [3, 0x0F, 0x33],
    [3, 0x00, 0x44],
];

const COUNT: usize = 0x0016;

/// Those that are plain or buffered.
const WRITABLE: [usize; 8] = [0x0002, 0x0008, 0x0009, 0x000A, 0x0012, 0x0013, 0x0014, 0x0015];

/// Words that show what is set, and words that show what is cleared.
const STARTS: [u64; 4] = [0, u64::MAX, 0x5A5A_5A5A_5A5A_5A5A, 0xA5A5_A5A5_A5A5_A5A5];

/// A chip after opening, with these words. A buffered register is moved at a rise.
fn chip_with(words: u64) -> Chip {
    let mut map = with_flags(&simple_map(COUNT), 1);
    for (address, entry) in (0x0010..).zip(ENTRIES) {
        set_entry(&mut map, address, entry);
    }
    Chip { words: vec![words], ..Chip::opened(&map) }
}

/// Every register, and some addresses beyond the last, with bytes that the control
/// registers do something for.
fn every_write() -> impl Iterator<Item = (usize, u8)> {
    let addresses = (0..COUNT + 3).chain([0x003F, 0x0040, 0x0055, 0x4002, 0x7FFF]);
    let bytes = [0x00, 0x01, 0x11, 0x20, 0x40, 0x42, 0x80, 0x81, 0xFF];
    addresses.flat_map(move |address| bytes.map(|v| (address, v)))
}

/// By the kind alone: also with mask 0, and with the byte that is there already.
#[test]
fn effects_1_and_2_touch_their_register_and_no_other_does() {
    for ((address, v), start) in every_write().flat_map(|w| STARTS.map(|start| (w, start))) {
        let touches = WRITABLE.contains(&address);
        let mut chip = chip_with(start);
        let first = chip.write(address as u16, &[v]).concat();
        let expected = start | if touches { 1 << address } else { 0 };
        assert_eq!(chip.words, [expected], "{first}");
        assert_eq!(["1", "2"].contains(&&first[13..14]), touches, "{first}");

        chip.words = vec![start];
        let again = chip.write(address as u16, &[v]).concat();
        assert_eq!(chip.words, [expected], "{again}");
        assert!(again.ends_with(" 00"), "nothing moves: {again}");
    }
}

#[test]
fn a_read_or_a_broken_byte_touches_nothing() {
    for (address, start) in (0..COUNT + 2).flat_map(|a| STARTS.map(|start| (a, start))) {
        let chip = chip_with(start);
        let mut read = chip.clone();
        read.due(address as u16);
        assert_eq!(read.words, [start]);
        let order =
            Order { direction: 0, settings: 0, start: address as u64, count: 1, data: &[0xFF] };
        let samples = sent(&order);
        // The byte is whole with sample 49.
        for s in 0..49 {
            let mut cut = chip.clone();
            cut.read(&[&samples[..s], &[CSB]].concat());
            assert_eq!(cut.words, [start], "{address:#06X} at {s}");
        }
    }
}

/// What a whole run has passed is touched, also where its next byte breaks off.
#[test]
fn a_run_touches_what_it_has_passed() {
    let order =
        Order { direction: 0, settings: 0, start: 0x0015, count: 6, data: &[1, 2, 3, 4, 5, 6] };
    let samples = sent(&order);
    for s in 0..=samples.len() {
        let mut chip = chip_with(0);
        chip.read(&[&samples[..s], &[CSB]].concat());
        let whole = (1..=6).filter(|i| s >= 33 + 16 * i).count();
        let passed = [0x0015, 0x0014, 0x0013, 0x0012, 0x0011, 0x0010].into_iter();
        let mut due: Vec<u64> = passed.take(whole).filter(|&a| a >= 0x0012).collect();
        due.reverse();
        assert_eq!(set_in(&chip.words), due, "at {s}");
    }
}

#[test]
fn a_reset_a_transfer_and_the_move_at_a_rise_leave_the_words() {
    for start in STARTS {
        let mut chip = chip_with(start);
        let touched = [start | 1 << 0x0014];
        chip.write(0x0014, &[0xFF]);
        assert_eq!((chip.active[0x0014], &chip.words[..]), (0x3F, &touched[..]), "moved");
        chip.buffer.fill(0x66);
        chip.write(0x000F, &[0x01]);
        assert_eq!((chip.active[0x0014], &chip.words[..]), (0x66, &touched[..]), "transferred");
        chip.write(0x0000, &[0x81]);
        assert_eq!((chip.active[0x0014], &chip.words[..]), (0x33, &touched[..]), "reset");
    }
}

/// 0x0000, 0x0004 and 0x0005 as each part has them; 0x0001 and 0x000F are plain.
#[test]
fn on_an_older_chip_the_controls_touch_nothing() {
    for part in PARTS {
        let older = Older { part, top: 0x0010 };
        let controls = match part {
            Part::Ad9557 => &[0x0000, 0x0004, 0x0005][..],
            Part::Ad9508 => &[0x0000, 0x0005],
        };
        let writes = (0..=0x0010).flat_map(|a| [0x00, 0x01, 0x40, 0x81, 0xFF].map(|v| (a, v)));
        for ((address, v), start) in writes.flat_map(|w| STARTS.map(|start| (w, start))) {
            let mut chip = Chip::opened_by(Some(older), &simple_older_map(older));
            chip.words = vec![start];
            chip.write(address, &[v]);
            let bit = if controls.contains(&address) { 0 } else { 1 << address };
            assert_eq!(chip.words, [start | bit], "{part:?}: {v:02X} to {address:#06X}");
        }
    }
}

/// The last register, and the address after it; no word beside them changes.
#[test]
fn the_last_register_has_its_bit() {
    let mut random = Random::new(1);
    for (count, words, bit) in SIZES {
        for mut chip in chips_of(count) {
            assert_eq!(chip.words.len(), words);
            chip.words = some_words(&mut random, words);
            chip.words[words - 1] &= !(1 << bit);
            let mut expected = chip.words.clone();
            expected[words - 1] |= 1 << bit;
            chip.write(count as u16 - 1, &[0x3C]);
            assert_eq!(chip.words, expected, "{count} registers");
            if chip.older.is_none() {
                chip.words.fill(0);
                chip.write(count as u16, &[0x3C]);
                assert_eq!(set_in(&chip.words), [], "{count} registers");
            }
        }
    }
}

/// A good map and a trace for it, of any chip.
fn any_chip_and_trace(random: &mut Random) -> (Chip, Vec<u8>) {
    let (count, length) = (random.between(16, 200), random.below(2_000));
    if random.coin() {
        let map = good_map(random, count);
        return (Chip::opened(&map), trace(random, &map, length, true));
    }
    let older = Older { part: random.pick(&PARTS), top: count as u64 - 1 };
    let map = good_older_map(random, older);
    (Chip::opened_by(Some(older), &map), older_trace(random, older, length))
}

#[test]
fn bits_at_n_and_beyond_stay() {
    let mut random = Random::new(2);
    for _ in 0..2_000 {
        let (mut chip, samples) = any_chip_and_trace(&mut random);
        let count = chip.active.len() as u64;
        chip.words = any_words(&mut random, chip.active.len());
        let before = set_in(&chip.words);
        chip.read(&samples);
        let after = set_in(&chip.words);
        let beyond = |set: &[u64]| set.iter().filter(|&&a| a >= count).count();
        assert_eq!(beyond(&after), beyond(&before), "{count} registers");
        assert!(before.iter().all(|address| after.contains(address)), "none is cleared");
    }
}
