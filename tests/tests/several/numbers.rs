//! By hand: what is refused, with which number, and what is not.

use couplingnut_tests::generate::calls::MOST_SAMPLES;
use couplingnut_tests::generate::maps::set_entry;
use couplingnut_tests::generate::random::Random;
use couplingnut_tests::generate::sessions::{every_piece, unsound_sessions};
use couplingnut_tests::generate::several::{any_call, may_be_contended, spoil, Wrong};
use couplingnut_tests::layout::to_bytes;
use couplingnut_tests::several::Given;
use second::session::Phase;
use second::several::{BankRange, RECORD};

use super::{opened, read, spoken_to, write_of};

/// A way to spoil a call that is done, and the number that it then gives.
type Reason = (u32, fn(&mut Given));

#[test]
fn no_samples_are_no_records() {
    let given = opened(8, &[]);
    assert_eq!(read(&given), given.untouched(0));
}

/// The number of a call for chips of 16 registers in 400 bytes, with these as the active
/// ranges of chips 1 and 4, or as chip 1's own two. All others lie between 200 and 380.
fn number_with(first: BankRange, second: BankRange, own: bool) -> u32 {
    let mut given = opened(5, &[]);
    given.memory = vec![0xEE; 400];
    for (i, chip) in given.chips.iter_mut().enumerate() {
        chip.active.start = 200 + 36 * i as u64;
        chip.buffer.start = 218 + 36 * i as u64;
    }
    given.chips[1].active = first;
    let other = if own { &mut given.chips[1].buffer } else { &mut given.chips[4].active };
    *other = second;
    let left = read(&given);
    assert_eq!(left, given.untouched(left.number));
    left.number
}

#[test]
fn ranges_may_touch_and_not_overlap() {
    let range = |start, length| BankRange { start, length };
    for own in [false, true] {
        for start in 0..=100 {
            let number = |first, second| number_with(first, second, own);
            let apart = start <= 24 || start >= 56;
            let expected = if apart { 0 } else { 17 };
            assert_eq!(number(range(40, 16), range(start, 16)), expected, "{start}");
            // By the lengths as they are given, and only then against n.
            let within = start < 40 && start + 50 > 40 || (40..56).contains(&start);
            let expected = if within { 17 } else { 4 };
            assert_eq!(number(range(40, 16), range(start, 50)), expected, "{start}");
            let expected = if (40..56).contains(&start) { 17 } else { 4 };
            assert_eq!(number(range(40, 16), range(start, 1)), expected, "{start}");
            assert_eq!(number(range(40, 16), range(start, 0)), 4, "{start}");
            assert_eq!(number(range(start, 0), range(start, 0)), 4, "{start}");
        }
    }
}

#[test]
fn ranges_may_not_leave_the_memory() {
    let range = |start, length| BankRange { start, length };
    let number = |start, length| number_with(range(40, 16), range(start, length), false);
    for (start, length, expected) in [
        (384, 16, 0),
        (385, 16, 17),
        (385, 15, 4),
        (399, 2, 17),
        (400, 0, 4),
        (401, 0, 17),
        (400, 1, 17),
        (u64::MAX, 0, 17),
        (u64::MAX, 1, 17),
        (u64::MAX, 16, 17),
        (u64::MAX - 15, 16, 17),
        (u64::MAX, u64::MAX, 17),
        (0, u64::MAX, 17),
        (384, u64::MAX - 383, 17),
        (384, u64::MAX - 367, 17),
        (1 << 63, 1 << 63, 17),
        ((1 << 32) + 384, 16, 17),
        (384, (1 << 32) + 16, 17),
    ] {
        assert_eq!(number(start, length), expected, "{start}, {length}");
    }
}

/// Without memory every range is empty, at 0 or beyond it.
#[test]
fn a_memory_of_no_bytes_has_empty_ranges() {
    let mut given = opened(8, &[]);
    given.memory.clear();
    assert_eq!(read(&given), given.untouched(17));
    let empty = BankRange { start: 0, length: 0 };
    given.chips.iter_mut().for_each(|chip| (chip.active, chip.buffer) = (empty, empty));
    assert_eq!(read(&given), given.untouched(4));
    given.chips[7].buffer.start = 1;
    assert_eq!(read(&given), given.untouched(17));
}

#[test]
fn one_to_eight_chips_are_read() {
    for chips in 0..=20 {
        let given = opened(chips, &[]);
        let expected = if (1..=8).contains(&chips) { 0 } else { 17 };
        assert_eq!(read(&given), given.untouched(expected), "{chips} chips");
    }
}

/// Of any chip; those of older chips are among them.
#[test]
fn unsound_sessions_are_refused_with_1() {
    for (i, session) in unsound_sessions().into_iter().enumerate() {
        let mut given = opened(8, &[]);
        given.chips[i % 8].session = to_bytes(&session);
        assert_eq!(read(&given), given.untouched(1), "{session:?}");
    }
}

/// Clear unless bits of a read byte are taken.
#[test]
fn the_mark_stands_only_where_bits_of_a_read_byte_are_taken() {
    for (i, session) in every_piece().into_iter().enumerate() {
        let mut given = opened(8, &[]);
        let chip = &mut given.chips[i % 8];
        (chip.session, chip.contended) = (to_bytes(&session), 1);
        let stands = session.phase == Phase::Data && session.read && session.bits > 0;
        assert_eq!(may_be_contended(&session), stands);
        assert_eq!(read(&given), given.untouched(u32::from(!stands)), "{session:?}");
    }
}

#[test]
fn samples_are_refused_with_5() {
    for chips in 1..=8 {
        for bit in 0..8 {
            let absent_is_low = opened(chips, &[[0xFF, 0x00], [!(1 << bit), 0x00]]);
            let expected = if bit < chips { 0 } else { 5 };
            assert_eq!(read(&absent_is_low).number, expected, "bit {bit} of {chips} chips");
            let spare = opened(chips, &[[0xFF, 0x00], [0xFF, 1 << bit]]);
            let expected = if (1..=3).contains(&bit) { 0 } else { 5 };
            assert_eq!(read(&spare).number, expected, "line {bit}");
        }
        let mut given = opened(chips, &[[0xFF, 0x00]]);
        for length in 0..6 {
            given.samples = [0xFF, 0x00].repeat(3);
            given.samples.truncate(length);
            assert_eq!(read(&given).number, if length % 2 == 0 { 0 } else { 5 }, "{length} bytes");
        }
        for (samples, expected) in [(MOST_SAMPLES, 0), (MOST_SAMPLES + 1, 5)] {
            let given = opened(chips, &vec![[0xFF, 0x00]; samples]);
            assert_eq!(read(&given).number, expected, "{samples} samples");
        }
    }
}

/// Eight bytes each, of all chips together; the rest of the room stays.
#[test]
fn the_room_is_that_of_all_records() {
    let mut given = opened(3, &spoken_to(0b101, &write_of(0x000A, 0x3C)));
    for room in 0..30 {
        given.records = vec![0xEE; room];
        let left = read(&given);
        if room < 2 * RECORD {
            assert_eq!(left, given.untouched(6));
        } else {
            assert_eq!((left.number, left.count), (0, 2));
            assert!(left.records[2 * RECORD..].iter().all(|&byte| byte == 0xEE));
        }
    }
}

/// Every set of reasons, the first of them told.
#[test]
fn the_numbers_come_in_their_order() {
    let reasons: [Reason; 7] = [
        (17, |given| given.chips[0].buffer = given.chips[0].active),
        (1, |given| given.chips[2].session[0] = 0),
        (2, |given| given.map[2] = 3),
        (3, |given| set_entry(&mut given.map, 0x000A, [2, 0x00, 0x00])),
        (4, |given| given.chips[1].active.length = 15),
        (5, |given| given.samples.push(0xFF)),
        (6, |given| given.records.truncate(2 * RECORD - 1)),
    ];
    for set in 1..1 << reasons.len() {
        let mut given = opened(3, &spoken_to(0b101, &write_of(0x000A, 0x3C)));
        let chosen = (0..).zip(reasons).filter(|(i, _)| set >> i & 1 == 1).map(|(_, one)| one);
        chosen.clone().for_each(|(_, spoil)| spoil(&mut given));
        let first = chosen.map(|(number, _)| number).next().expect("a reason at least");
        assert_eq!(read(&given), given.untouched(first), "{set:#09b}");
    }
}

/// The same of generated calls, and that nothing refuses them unspoilt.
#[test]
fn generated_calls_are_refused_as_they_are_spoilt() {
    for seed in 0..128 * 20 {
        let mut random = Random::new(seed);
        let mut given = any_call(&mut random, 200);
        assert_eq!(read(&given).number, 0, "seed {seed}");
        let is_chosen = |i: usize| seed >> i & 1 == 1 && (i < 6 || given.records_due() > 0);
        let wrongs: Vec<Wrong> = Wrong::ALL
            .into_iter()
            .enumerate()
            .filter(|(i, _)| is_chosen(*i))
            .map(|(_, w)| w)
            .collect();
        spoil(&mut random, &mut given, &wrongs);
        let number = wrongs.first().map_or(0, |wrong| wrong.number());
        assert_eq!(read(&given).number, number, "seed {seed}, {wrongs:?}");
    }
}
