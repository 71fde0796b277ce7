//! Stopped runs through the settings: Ask 11 of document 02. Streaming writes that pass
//! through 0x0000 or 0x0001, and to older chips through 0x0000 or 0x0004, end as the book
//! says at every stop: the whole bytes, each by its own effect, and then the rise.

use couplingnut_tests::book::book;
use couplingnut_tests::chip::{sent, sent_older, Chip};
use couplingnut_tests::generate::maps::{entries_of, set_entry, simple_map, with_flags};
use couplingnut_tests::generate::older::maps::simple_older_map;
use couplingnut_tests::generate::older::orders::{older_at_rest, older_write_through_settings};
use couplingnut_tests::generate::orders::{chip_at_rest, mirrored, write_through_settings};
use couplingnut_tests::generate::random::Random;
use couplingnut_tests::library;
use second::older::{Older, Part};
use second::sender::Order;
use second::session::CSB;
use second::settings::Settings;

use crate::stopped_run::{assert_kept, before_the_raise, read_by_calls, Side};

/// The sample with which byte i, counted from 0, is whole.
fn whole_at(i: usize) -> usize {
    33 + 16 * (i + 1)
}

/// The write of these bytes from there on.
fn write_order(settings: u64, start: u64, data: &[u8]) -> Order<'_> {
    Order { direction: 0, settings, start, count: data.len() as u64, data }
}

/// The byte that a newer chip's run sends to this register, if it does.
fn byte_to(order: &Order, address: usize) -> Option<u8> {
    let start = order.start as usize;
    let place = match order.settings & 2 {
        0 => (start + 0x8000 - address) % 0x8000,
        _ => (address + 0x8000 - start) % 0x8000,
    };
    order.data.get(place).copied()
}

/// Every stop of a run, each by another list of calls, refused ones among them.
fn every_stop_ends_as_the_book_says(
    random: &mut Random,
    side: &mut Side,
    chip: &Chip,
    order: &Order,
    all: &[u8],
) {
    for s in 0..=all.len() {
        let mut stopped = chip.clone();
        read_by_calls(random, side, &mut stopped, &all[..s]);
        assert_kept(&stopped, &before_the_raise(chip, order, all, s), order, s);
        let raise = CSB | random.byte() & 0x0E;
        read_by_calls(random, side, &mut stopped, &[raise]);
        assert_kept(&stopped, &book(chip, order, s), order, s);
    }
}

/// What the runs of a test had in them.
#[derive(Default, Debug)]
struct Met {
    resets: usize,
    mirrors: usize,
    others: usize,
    transfers: usize,
    wraps: usize,
    changed: usize,
}

impl Met {
    fn note(&mut self, chip: &Chip, order: &Order) {
        let last = (order.start as usize + order.data.len() - 1) % 0x8000;
        let wraps = match order.settings & 2 {
            0 => order.data.len() > order.start as usize + 1,
            _ => last < order.start as usize,
        };
        match byte_to(order, 0x0000) {
            None => {}
            Some(v) if v != mirrored(v & 0x0F) => self.others += 1,
            Some(v) if v & 1 == 1 => self.resets += 1,
            Some(_) => self.mirrors += 1,
        }
        self.transfers += usize::from(byte_to(order, 0x000F).is_some_and(|v| v & 1 == 1));
        self.wraps += usize::from(wraps);
        let (active, buffer, _) = book(chip, order, usize::MAX);
        self.changed += usize::from((&active, &buffer) != (&chip.active, &chip.buffer));
    }

    fn assert_all(&self, times: usize) {
        let Met { resets, mirrors, others, transfers, wraps, changed } = *self;
        let least = [resets, mirrors, others, transfers, wraps, changed].into_iter().min();
        assert!(least >= Some(times), "too few of {self:?}");
    }
}

fn runs_through_the_settings(side: &mut Side, seed: u64) {
    let mut random = Random::new(seed);
    let mut met = Met::default();
    for _ in 0..100 {
        let (settings, start, data) = write_through_settings(&mut random);
        let order = write_order(settings, start, &data);
        let passed = [0x0000, 0x0001].map(|address| byte_to(&order, address));
        assert_ne!(passed, [None, None], "{order:X?} passes by the settings");
        let chip = chip_at_rest(&mut random, settings);
        let all = side.send(&order);
        every_stop_ends_as_the_book_says(&mut random, side, &chip, &order, &all);
        met.note(&chip, &order);
    }
    met.assert_all(10);
}

fn older_runs_through_the_settings(side: &mut Side, seed: u64) {
    let mut random = Random::new(seed);
    let (mut streaming, mut changed) = (0, 0);
    for _ in 0..150 {
        let settings = random.below(2) as u64;
        let chip = older_at_rest(&mut random, settings);
        let top = chip.older.expect("an older chip").top;
        let (start, data) = older_write_through_settings(&mut random, settings, top);
        let order = write_order(settings, start, &data);
        let all = sent_older(top, &order);
        every_stop_ends_as_the_book_says(&mut random, side, &chip, &order, &all);
        streaming += usize::from(data.len() > 3);
        let (active, buffer, _) = book(&chip, &order, all.len());
        changed += usize::from((&active, &buffer) != (&chip.active, &chip.buffer));
    }
    assert!(streaming > 80, "only {streaming} runs streamed");
    assert!(changed > 80, "only {changed} runs changed a bank");
}

#[test]
fn every_stop_of_a_run_through_the_settings_ends_as_the_book_says() {
    runs_through_the_settings(&mut Side::Both, 1);
}

#[test]
fn the_library_ends_runs_through_the_settings_as_the_book_says() {
    library::assert_present();
    runs_through_the_settings(&mut Side::product(), 2);
}

#[test]
fn every_stop_of_an_older_run_through_the_settings_ends_as_the_book_says() {
    older_runs_through_the_settings(&mut Side::Both, 3);
}

#[test]
fn the_library_ends_older_runs_through_the_settings_as_the_book_says() {
    library::assert_present();
    older_runs_through_the_settings(&mut Side::product(), 4);
}

/// A chip at rest, and start and bytes of a run down to 0x0000 and on that
/// has a soft reset and no transfer.
fn chip_and_reset(random: &mut Random) -> (Chip, u64, Vec<u8>) {
    let chip = chip_at_rest(random, 0);
    let start = random.below(chip.active.len());
    let beyond = random.below(3);
    let mut data = random.bytes(start + 1 + beyond);
    data[start] = mirrored(random.byte() & 0x0F | 1);
    if start >= 0x000F {
        data[start - 0x000F] &= 0xFE;
    }
    (chip, start as u64, data)
}

/// What buffered registers have in force.
fn in_force(chip: &Chip) -> Vec<u8> {
    let entries = entries_of(&chip.map);
    let buffered = entries.iter().zip(&chip.active).filter(|(entry, _)| entry[0] == 3);
    buffered.map(|(_, &active)| active).collect()
}

/// What they have by default.
fn defaults(chip: &Chip) -> Vec<u8> {
    let entries = entries_of(&chip.map);
    entries.iter().filter(|entry| entry[0] == 3).map(|entry| entry[2]).collect()
}

/// Said without the book: with no transfer in the run, what is in force of buffered
/// registers stays while the select is low, up to the sample that makes the reset
/// whole; from that one on it is the defaults, and the rise alters nothing.
fn assert_reset_at_its_last_bit(chip: &Chip, start: u64, data: &[u8]) {
    let all = sent(&write_order(0, start, data));
    let (before, after) = (in_force(chip), defaults(chip));
    for s in 0..all.len() {
        let mut stopped = chip.clone();
        stopped.read(&all[..s]);
        let is_reset = s >= whole_at(start as usize);
        assert_eq!(in_force(&stopped), if is_reset { after.as_slice() } else { &before }, "{s}");
        let banks = (stopped.active.clone(), stopped.buffer.clone());
        stopped.read(&[CSB]);
        if is_reset {
            assert_eq!((stopped.active, stopped.buffer), banks, "nothing is left to move at {s}");
        }
    }
}

#[test]
fn a_whole_reset_puts_the_defaults_of_buffered_registers_in_force() {
    let mut random = Random::new(5);
    for _ in 0..60 {
        let (chip, start, data) = chip_and_reset(&mut random);
        assert_reset_at_its_last_bit(&chip, start, &data);
    }
}

/// 0x0002 and 0x0010 buffered, with the flag or without; no stages are alike.
fn chip_with(flags: u8) -> Chip {
    let mut map = with_flags(&simple_map(0x0011), flags);
    set_entry(&mut map, 0x0002, [3, 0xFF, 0x33]);
    set_entry(&mut map, 0x0010, [3, 0xFF, 0x11]);
    let mut chip = Chip::opened(&map);
    chip.active = (0x80..).take(0x0011).collect();
    chip.buffer = (0x40..).take(0x0011).collect();
    chip
}

/// Up across 0x7FFF: the reset turns ascending off, and the run goes on up. What is
/// written after the reset waits for a transfer, or for the rise.
#[test]
fn a_run_goes_on_after_a_reset_as_it_began() {
    for (flags, due) in [(0, 0x33), (1, 0x77)] {
        let mut chip = chip_with(flags);
        chip.session.settings = Settings::ASCENDING;
        let data = [0x5A, 0x81, 0x80, 0x77];
        let all = sent(&write_order(2, 0x7FFF, &data));
        let lines = ["W 7FFF 5A 00 0 00", "W 0000 81 00 5 00", "W 0001 80 80 3 00"];
        assert_eq!(chip.read(&all[..whole_at(2)]), lines);
        assert_eq!((chip.active[0x0002], chip.active[0x0010]), (0x33, 0x11));
        assert_eq!(chip.read(&all[whole_at(2)..whole_at(3)]), ["W 0002 77 77 2 44"]);
        assert_eq!((chip.active[0x0002], chip.buffer[0x0002]), (0x33, 0x77));
        assert!(chip.read(&all[whole_at(3)..]).is_empty());
        assert_eq!((chip.active[0x0002], chip.buffer[0x0002]), (due, 0x77));
        assert_eq!((chip.active[0x0010], chip.buffer[0x0010]), (0x11, 0x11));
        assert_eq!(chip.session.settings, Settings::SINGLE_INSTRUCTION);
        assert_eq!(chip.words, [1 << 0x0002]);
    }
}

/// Down to 0x0000 and on from 0x7FFF: bit order and direction are set for the next
/// instruction, and the byte after 0x0000 goes as the run began.
#[test]
fn bit_order_and_direction_stay_to_the_end_of_the_run() {
    let mut chip = chip_with(0);
    let data = [0x12, 0xA0, 0x66, 0x12];
    let all = sent(&write_order(0, 0x0002, &data));
    let lines =
        ["W 0002 12 12 2 50", "W 0001 A0 A0 3 00", "W 0000 66 66 3 00", "W 7FFF 12 00 0 00"];
    assert_eq!(chip.read(&all), lines);
    let set = [Settings::ASCENDING, Settings::SINGLE_INSTRUCTION, Settings::BUFFER_READBACK];
    assert_eq!(chip.session.settings, set.into_iter().fold(Settings::LSB_FIRST, Settings::with));
    assert_eq!((chip.active[0x0002], chip.buffer[0x0002]), (0x82, 0x12));
}

/// A byte that is not its own mirror resets nothing, nor does one that is cut; with the
/// flag the bytes before it come in force at the rise.
#[test]
fn only_a_whole_mirror_resets() {
    for (v, s) in [(0x80, 83), (0x01, 83), (0x81, whole_at(2) - 1)] {
        let all = sent(&write_order(0, 0x0002, &[0x12, 0x00, v]));
        let samples = [&all[..s], &[CSB]].concat();
        let [mut plain, mut flagged] = [0, 1].map(chip_with);
        plain.read(&samples);
        flagged.read(&samples);
        let mut expected = chip_with(0);
        expected.buffer[0x0002] = 0x12;
        assert_eq!((&plain.active, &plain.buffer), (&expected.active, &expected.buffer));
        expected.active[0x0002] = 0x12;
        expected.active[0x0010] = expected.buffer[0x0010];
        assert_eq!((flagged.active, flagged.buffer), (expected.active, expected.buffer));
    }
}

/// No byte resets an older chip: what was written after the transfer waits.
#[test]
fn an_older_run_through_its_settings_has_no_reset() {
    let older = Older { part: Part::Ad9557, top: 0x000F };
    let mut map = simple_older_map(older);
    set_entry(&mut map, 0x0006, [3, 0xFF, 0x22]);
    set_entry(&mut map, 0x0003, [3, 0xFF, 0x33]);
    let mut chip = Chip::opened_by(Some(older), &map);
    let data = [0x5A, 0x01, 0x01, 0x77, 0x10, 0x20, 0x81];
    let lines = [
        "W 0006 5A 5A 2 78",
        "W 0005 01 00 4 00",
        "W 0004 01 01 3 00",
        "W 0003 77 77 2 44",
        "W 0002 10 10 1 10",
        "W 0001 20 20 1 20",
        "W 0000 81 00 3 00",
    ];
    assert_eq!(chip.read(&sent_older(older.top, &write_order(0, 0x0006, &data))), lines);
    assert_eq!((chip.active[0x0006], chip.active[0x0003]), (0x5A, 0x33));
    assert_eq!((chip.buffer[0x0006], chip.buffer[0x0003]), (0x5A, 0x77));
    assert_eq!(chip.session.settings, Settings::BUFFER_READBACK);
}
