//! The call of the library against the second implementation, call by call: number,
//! count, chips, memory and the whole record buffer.

use couplingnut_tests::environment::number_from;
use couplingnut_tests::generate::maps::{good_map, with_flags};
use couplingnut_tests::generate::random::Random;
use couplingnut_tests::generate::sessions::{every_piece, with_every_setting};
use couplingnut_tests::generate::several::{any_list, any_wire, clocks, may_be_contended, Chain};
use couplingnut_tests::layout::to_bytes;
use couplingnut_tests::library;
use couplingnut_tests::several::{Comparison, Given};
use second::session::{Phase, Session};

use super::with_wire;

/// The calls of a gate run, in lists.
const CALLS: u64 = 200_000;
/// The calls of one list, at most.
const CHAIN: usize = 40;

/// Cut anywhere and with refused calls anywhere; sessions and marks are handed on.
#[test]
fn lists_of_calls_agree() {
    library::assert_present();
    let (first, calls) = (number_from("SEED", 0), number_from("CALLS", CALLS));
    let mut comparison = Comparison::new("several::lists::lists_of_calls_agree");
    for seed in first.. {
        if comparison.tally.calls >= calls {
            break;
        }
        comparison.begin(seed);
        let mut chain = Chain::new(seed);
        for _ in 0..CHAIN {
            let given = chain.next_call();
            let left = comparison.call(&given);
            // A refused call left the chips and the memory that it was given.
            if left.number == 0 {
                chain.go_on(&given, &left);
            }
            if chain.is_over() {
                break;
            }
        }
    }
    if calls >= CALLS {
        comparison.tally.assert_numbers(&[0, 1, 2, 3, 4, 5, 6, 17], 1_000);
        comparison.tally.assert_records(100);
        assert!(comparison.tally.marked > 1_000, "{} calls left a mark", comparison.tally.marked);
    }
}

/// Whole recordings, in one call each.
#[test]
fn recordings_agree() {
    library::assert_present();
    let mut comparison = Comparison::new("several::lists::recordings_agree");
    for seed in 0..1_500 {
        comparison.begin(seed);
        let mut random = Random::new(seed);
        let (chips, count) = (random.between(1, 8), random.between(16, 60));
        let map = good_map(&mut random, count);
        let length = random.between(1_000, 4_000);
        let wire = any_wire(&mut random, &map, chips, length);
        let given = with_wire(&any_list(&mut random, &map, chips), &wire);
        assert_eq!(comparison.call(&given).number, 0);
    }
    comparison.tally.assert_records(300);
}

/// Every phase, number of bits, direction, setting, setting in use and level of SCLK,
/// armed, marked and not, beside other chips in any of them.
#[test]
fn sessions_in_every_phase_and_setting_are_read_on() {
    library::assert_present();
    let subject = "several::lists::sessions_in_every_phase_and_setting_are_read_on";
    let mut comparison = Comparison::new(subject);
    let map = good_map(&mut Random::new(1), 24);
    let flagged = [1, 0].map(|flags| with_flags(&map, flags));
    for (seed, shape) in (0..).zip(every_piece().into_iter().flat_map(with_every_setting)) {
        comparison.begin(seed);
        let mut random = Random::new(seed);
        let chips = random.between(2, 8);
        let list = any_list(&mut random, &flagged[seed as usize % 2], chips);
        let mut given = with_wire(&list, &clocks(&mut random, chips, 50));
        put_session(&mut random, &mut given, shape);
        assert_eq!(comparison.call(&given).number, 0, "{shape:?}");
    }
    comparison.tally.assert_records(5);
    assert!(comparison.tally.calls > 60_000);
}

/// Gives one chip the session, with any value of its bits and, in data, an address near
/// the map's.
fn put_session(random: &mut Random, given: &mut Given, shape: Session) {
    let value = random.below(1 << shape.bits) as u16;
    let address = if shape.phase == Phase::Data { random.below(26) as u16 } else { 0 };
    let session = Session { value, address, ..shape };
    let number = random.below(given.chips.len());
    let chip = &mut given.chips[number];
    chip.session = to_bytes(&session);
    chip.contended = u8::from(may_be_contended(&session) && random.coin());
}
