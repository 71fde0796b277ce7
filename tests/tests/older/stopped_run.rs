//! The stopped run of older chips: whatever calls read it, and wherever it is
//! stopped, both banks and the words of touched registers end as the book says. The run may then stand at a stall.

use couplingnut_tests::book::{book, kept};
use couplingnut_tests::chip::{sent_older, Chip};
use couplingnut_tests::generate::older::orders::{any_older_write, older_addresses, older_at_rest};
use couplingnut_tests::generate::random::Random;
use second::reader::RECORD;
use second::sender::Order;
use second::session::{Phase, Session, CSB};
use second::Answer;

/// A chip at rest and a write for it.
fn chip_and_write(random: &mut Random) -> (Chip, u64, u64, Vec<u8>) {
    let settings = random.below(2) as u64;
    let chip = older_at_rest(random, settings);
    let top = chip.older.expect("an older chip").top;
    let (start, data) = any_older_write(random, settings, top);
    (chip, settings, start, data)
}

/// Reads the samples by a list of calls, refused ones among them, all for the same
/// part and top.
fn read_by_calls(random: &mut Random, chip: &mut Chip, samples: &[u8]) {
    let mut rest = samples;
    while !rest.is_empty() {
        if random.one_in(3) {
            refused_call(random, chip, rest);
        }
        let (piece, after) = rest.split_at(random.between(0, 90).min(rest.len()));
        let mut ample = vec![0; RECORD * piece.len()];
        let count = chip.clone().call(piece, &mut ample).count;
        // With room for its records and no more, the call is done.
        let answer = chip.call(piece, &mut ample[..RECORD * count]);
        assert_eq!(answer, Answer { number: 0, count });
        rest = after;
    }
}

/// A call that is refused for its samples or, if they have records, its room.
fn refused_call(random: &mut Random, chip: &mut Chip, samples: &[u8]) {
    let mut ample = vec![0; RECORD * samples.len()];
    let count = chip.clone().call(samples, &mut ample).count;
    if count > 0 && random.coin() {
        let room = random.below(RECORD * count);
        assert_eq!(chip.call(samples, &mut ample[..room]).number, 6);
    } else {
        let bad = [samples, &[random.byte() | 0x20]].concat();
        assert_eq!(chip.call(&bad, &mut ample).number, 5);
    }
}

/// The port after the raise: at rest, or waiting before a byte of a counted run.
fn assert_at_rest_or_stalled(session: &Session, order: &Order, s: usize) {
    let border = s >= 33 && (s - 33) / 16 < order.count as usize && (s - 33) % 16 <= 1;
    if order.count <= 3 && border {
        let left = order.count as usize - (s - 33) / 16;
        assert_eq!((session.phase, session.bits), (Phase::Data, 0), "{order:?} at {s}");
        assert_eq!(usize::from(session.left), left);
    } else {
        assert_eq!(session.phase, Phase::Rest, "{order:?} at {s}");
    }
    assert_ne!(session.levels & CSB, 0);
}

/// Runs stopped anywhere, read by lists of calls: those clear of 0x0000 and 0x0004,
/// which demand 3 is about, and the others, of which it holds too.
#[test]
fn both_banks_end_as_the_book_says() {
    let mut random = Random::new(1);
    let (mut changed, mut clear, mut touched) = (0, 0, 0);
    for _ in 0..20_000 {
        let (mut chip, settings, start, data) = chip_and_write(&mut random);
        let top = chip.older.expect("an older chip").top;
        let order = Order { direction: 0, settings, start, count: data.len() as u64, data: &data };
        let before = chip.clone();
        let all = sent_older(top, &order);
        let s = random.below(all.len() + 1);
        let raise = CSB | random.byte() & 0x0E;
        read_by_calls(&mut random, &mut chip, &[&all[..s], &[raise]].concat());

        assert_eq!(kept(&chip), book(&before, &order, s), "{order:?} at {s}");
        assert_at_rest_or_stalled(&chip.session, &order, s);
        changed += usize::from(before.active != chip.active || before.buffer != chip.buffer);
        touched += usize::from(before.words != chip.words);
        clear += usize::from(older_addresses(&order).iter().all(|a| ![0, 4].contains(a)));
    }
    assert!(changed > 4_000, "only {changed} runs changed a bank");
    assert!(touched > 2_000, "only {touched} runs touched a register");
    assert!((5_000..18_000).contains(&clear), "{clear} runs are clear of 0x0000 and 0x0004");
}

/// Every stop of a few runs, so that no boundary is left to chance.
#[test]
fn every_stop_of_a_run_ends_as_the_book_says() {
    let mut random = Random::new(2);
    for _ in 0..300 {
        let (chip, settings, start, data) = chip_and_write(&mut random);
        let top = chip.older.expect("an older chip").top;
        let order = Order { direction: 0, settings, start, count: data.len() as u64, data: &data };
        let all = sent_older(top, &order);
        for s in 0..=all.len() {
            let mut stopped = chip.clone();
            let samples = [&all[..s], &[CSB]].concat();
            let answer = stopped.call(&samples, &mut [0; RECORD * 13]);
            assert_eq!(answer.number, 0);
            assert_eq!(kept(&stopped), book(&chip, &order, s), "{order:?} at {s}");
            assert_at_rest_or_stalled(&stopped.session, &order, s);
        }
    }
}

/// A transfer in a run moves what the bytes before it wrote, and no more.
#[test]
fn a_stopped_run_through_0x0005() {
    let mut random = Random::new(3);
    let mut transfers = 0;
    for _ in 0..2_000 {
        let settings = random.below(2) as u64;
        let chip = older_at_rest(&mut random, settings);
        let top = chip.older.expect("an older chip").top;
        let (before, after) = (random.below(6) as u64, random.below(6));
        let start = if settings == 1 { 5 - before } else { 5 + before };
        let reach = if settings == 1 { top - 5 } else { 5 };
        let data = random.bytes(before as usize + 1 + after.min(reach as usize));
        let order = Order { direction: 0, settings, start, count: data.len() as u64, data: &data };
        let all = sent_older(top, &order);
        for s in [all.len(), 33 + 16 * before as usize, 49 + 16 * before as usize] {
            let mut stopped = chip.clone();
            stopped.read(&[&all[..s.min(all.len())], &[CSB]].concat());
            assert_eq!(kept(&stopped), book(&chip, &order, s), "{order:?} at {s}");
        }
        transfers += usize::from(data[before as usize] & 1 == 1);
    }
    assert!(transfers > 500, "only {transfers} transfers");
}
