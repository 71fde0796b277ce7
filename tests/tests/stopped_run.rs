//! The stopped run of document 01: whatever calls read it, and wherever it is
//! stopped, both banks and the words of touched registers end as the book says, and
//! before the raise as the book without its last step (document 02, Asks 4 and 7). The second implementation sends and reads it,
//! call by call beside the library; and the library does all alone.

use couplingnut_tests::book::{book, book_before_the_rise, kept, Kept};
use couplingnut_tests::calls::{Call, Memory};
use couplingnut_tests::chip::{sent, Chip};
use couplingnut_tests::generate::orders::{any_write, chip_at_rest};
use couplingnut_tests::generate::random::Random;
use couplingnut_tests::layout::from_bytes;
use couplingnut_tests::library;
use second::reader::RECORD;
use second::sender::Order;
use second::session::{Phase, CSB};
use second::Answer;

/// Who sends and reads the run.
pub(crate) enum Side {
    /// The second implementation, and beside it the library.
    Both,
    /// The library alone.
    Product(Box<Memory>),
}

impl Side {
    pub(crate) fn product() -> Self {
        Side::Product(Box::default())
    }

    /// The samples of an order that nothing refuses.
    pub(crate) fn send(&self, order: &Order) -> Vec<u8> {
        let Side::Product(_) = self else {
            return sent(order);
        };
        let mut samples = vec![0xEE; 48_003];
        let (number, count) = library::send(order, &mut samples);
        assert_eq!(number, 0, "the order is good");
        samples.truncate(count as usize);
        samples
    }

    /// The read call, which moves the chip on.
    pub(crate) fn call(&mut self, chip: &mut Chip, samples: &[u8], records: &mut [u8]) -> Answer {
        let Side::Product(memory) = self else {
            return chip.call(samples, records);
        };
        let left = memory.product(Call::Read, &chip.given(samples, records));
        let left = left.expect("every library has this call");
        chip.session = from_bytes(&left.session).expect("the library leaves a session");
        chip.active = left.active;
        chip.buffer = left.buffer;
        chip.words = left.words;
        records.copy_from_slice(&left.records);
        Answer { number: left.number as u8, count: left.count as usize }
    }
}

/// Reads the samples by a list of calls, refused ones among them.
pub(crate) fn read_by_calls(random: &mut Random, side: &mut Side, chip: &mut Chip, samples: &[u8]) {
    let mut rest = samples;
    while !rest.is_empty() {
        if random.one_in(3) {
            refused_call(random, side, chip, rest);
        }
        let (piece, after) = rest.split_at(random.between(0, 90).min(rest.len()));
        let mut ample = vec![0; RECORD * piece.len()];
        let count = chip.clone().call(piece, &mut ample).count;
        // With room for its records and no more, the call is done.
        let answer = side.call(chip, piece, &mut ample[..RECORD * count]);
        assert_eq!(answer, Answer { number: 0, count });
        rest = after;
    }
    if random.one_in(3) {
        refused_call(random, side, chip, &[0x00, 0x02, 0x01]);
    }
}

/// A call that is refused for its samples or, if they have records, its room.
fn refused_call(random: &mut Random, side: &mut Side, chip: &mut Chip, samples: &[u8]) {
    let mut ample = vec![0; RECORD * samples.len()];
    let count = chip.clone().call(samples, &mut ample).count;
    if count > 0 && random.coin() {
        let room = random.below(RECORD * count);
        assert_eq!(side.call(chip, samples, &mut ample[..room]).number, 6);
    } else {
        let bad = [samples, &[random.byte() | 0x20]].concat();
        assert_eq!(side.call(chip, &bad, &mut ample).number, 5);
    }
}

/// What the book has before the raise. An order's own last sample is a rise.
pub(crate) fn before_the_raise(chip: &Chip, order: &Order, all: &[u8], s: usize) -> Kept {
    if s < all.len() {
        book_before_the_rise(chip, order, s)
    } else {
        book(chip, order, s)
    }
}

pub(crate) fn assert_kept(chip: &Chip, expected: &Kept, order: &Order, s: usize) {
    assert_eq!(&kept(chip), expected, "{order:?} at {s}");
}

/// Runs stopped anywhere, read by lists of calls; the raise is in a call of its own,
/// or in the last one.
fn runs_end_as_the_book_says(side: &mut Side, seed: u64) {
    let mut random = Random::new(seed);
    let (mut changed, mut moved, mut touched) = (0, 0, 0);
    for _ in 0..20_000 {
        let (settings, start, data) = any_write(&mut random);
        let order = Order { direction: 0, settings, start, count: data.len() as u64, data: &data };
        let mut chip = chip_at_rest(&mut random, settings);
        let before = chip.clone();
        let all = side.send(&order);
        let s = random.below(all.len() + 1);
        let raise = CSB | random.byte() & 0x0E;
        let (first, rest) = all[..s].split_at(if random.coin() { s } else { 0 });
        read_by_calls(&mut random, side, &mut chip, first);
        let waiting = before_the_raise(&before, &order, &all, first.len());
        assert_kept(&chip, &waiting, &order, first.len());
        read_by_calls(&mut random, side, &mut chip, &[rest, &[raise]].concat());

        assert_kept(&chip, &book(&before, &order, s), &order, s);
        assert_eq!((chip.session.phase, chip.session.armed), (Phase::Rest, false));
        changed += usize::from(before.active != chip.active || before.buffer != chip.buffer);
        moved += usize::from(chip.active != book_before_the_rise(&before, &order, s).0);
        touched += usize::from(before.words != chip.words);
    }
    assert!(changed > 4_000, "only {changed} runs changed a bank");
    assert!(moved > 1_000, "only {moved} runs moved a byte at the rise");
    assert!(touched > 2_000, "only {touched} runs touched a register");
}

/// Every stop of a few runs, so that no boundary is left to chance.
fn stops_end_as_the_book_says(side: &mut Side, seed: u64) {
    let mut random = Random::new(seed);
    for _ in 0..150 {
        let (settings, start, data) = any_write(&mut random);
        let order = Order { direction: 0, settings, start, count: data.len() as u64, data: &data };
        let chip = chip_at_rest(&mut random, settings);
        let all = side.send(&order);
        for s in 0..=all.len() {
            let mut stopped = chip.clone();
            let mut records = [0; RECORD * 13];
            assert_eq!(side.call(&mut stopped, &all[..s], &mut records).number, 0);
            assert_kept(&stopped, &before_the_raise(&chip, &order, &all, s), &order, s);
            assert_eq!(side.call(&mut stopped, &[CSB], &mut records).number, 0);
            assert_kept(&stopped, &book(&chip, &order, s), &order, s);

            let mut at_once = chip.clone();
            let samples = [&all[..s], &[CSB]].concat();
            assert_eq!(side.call(&mut at_once, &samples, &mut records).number, 0);
            assert_eq!(at_once, stopped, "{order:?} at {s}");
        }
    }
}

#[test]
fn both_banks_end_as_the_book_says() {
    runs_end_as_the_book_says(&mut Side::Both, 3);
}

#[test]
fn every_stop_of_a_run_ends_as_the_book_says() {
    stops_end_as_the_book_says(&mut Side::Both, 4);
}

#[test]
fn the_library_ends_as_the_book_says() {
    runs_end_as_the_book_says(&mut Side::product(), 5);
}

#[test]
fn the_library_ends_every_stop_as_the_book_says() {
    stops_end_as_the_book_says(&mut Side::product(), 6);
}
