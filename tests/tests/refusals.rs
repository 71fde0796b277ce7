//! What the library refuses: every number with its order, each way a session can
//! be unsound, banks and room of every length.

use couplingnut_tests::calls::{Call, Comparison, Given};
use couplingnut_tests::generate::calls::{sent_trace, spoil, Wrong};
use couplingnut_tests::generate::maps::{good_map, simple_map};
use couplingnut_tests::generate::near::{altered, Altered};
use couplingnut_tests::generate::random::Random;
use couplingnut_tests::generate::sessions::{every_piece, unsound_sessions};
use couplingnut_tests::generate::words::any_banks;
use couplingnut_tests::guarded::Against;
use couplingnut_tests::layout::{
    to_bytes, SessionBytes, ARMED_AT, FLAGS, LEFT_AT, PHASE_AT, VERSION,
};
use second::reader::{most_records, RECORD};
use second::session::{Phase, Session};

/// Every set of reasons: 1, 2, 3, 4, 16, 5, 6.
#[test]
fn the_lowest_number_that_applies_is_given() {
    let mut comparison = Comparison::new("refusals::the_lowest_number_that_applies_is_given");
    compare_reasons(&mut comparison, &Wrong::ALL, 160, good_call);
}

/// Calls that nothing refuses, with records, and then every set of these reasons, so many
/// times each.
pub fn compare_reasons(
    comparison: &mut Comparison,
    reasons: &[Wrong],
    times: u64,
    good_call: fn(&mut Random) -> Given,
) {
    for seed in 0..times << reasons.len() {
        let mut random = Random::new(seed);
        comparison.begin(seed, Against::PageAfter);
        let wrongs: Vec<Wrong> =
            (0..).zip(reasons).filter(|(i, _)| seed >> i & 1 == 1).map(|(_, &w)| w).collect();
        let first = wrongs.first().map_or(0, |wrong| wrong.number());
        for call in Call::READING {
            let mut given = good_call(&mut random);
            spoil(&mut random, call, &mut given, &wrongs);
            assert_eq!(comparison.call(call, &given).number, first, "{wrongs:?}");
        }
        let of_opening = [Wrong::MapForm, Wrong::MapEntry, Wrong::Banks, Wrong::Top];
        let first = wrongs.iter().find(|wrong| of_opening.contains(wrong));
        let mut given = good_call(&mut random);
        spoil(&mut random, Call::Read, &mut given, &wrongs);
        let left = comparison.call(Call::Open, &given);
        assert_eq!(left.number, first.map_or(0, |wrong| wrong.number()), "{wrongs:?}");
        assert_eq!(left.session, OPENED);
    }
}

/// At rest, last SCLK low, all settings clear, not armed.
const OPENED: SessionBytes = [4, 1, 0, 0, 0, 0, 0, 0, 0, 0, 0, 0, 0, 0, 0, 0, 0, 0, 0, 0, 0];

fn good_call(random: &mut Random) -> Given {
    let count = random.between(16, 40);
    let given = Given::opened(&good_map(random, count));
    with_a_record(random, given)
}

/// A call that is done and has a record, of a chip after opening.
pub fn with_a_record(random: &mut Random, mut given: Given) -> Given {
    (given.active, given.buffer, given.words) = any_banks(random, given.active.len());
    // A bit of an instruction, and the cut; then anything.
    given.samples = vec![0x00, 0x02, 0x01];
    let length = random.between(0, 200);
    given.samples.extend(sent_trace(random, given.older, &given.map, length));
    given.records = random.bytes(RECORD * most_records(given.samples.len()));
    given
}

/// Every byte of sessions in every piece takes every value, alone; flags, phases and
/// versions that there are not make no session.
#[test]
fn every_byte_of_a_session_is_looked_at() {
    let mut comparison = Comparison::new("refusals::every_byte_of_a_session_is_looked_at");
    let map = simple_map(16);
    for (seed, piece) in (0..).zip(every_piece()) {
        comparison.begin(seed, Against::PageAfter);
        compare_bytes(&mut comparison, Given::opened(&map), &piece, |at, value| {
            makes_unsound(at, value, piece.phase)
        });
    }
    comparison.tally.assert_numbers(Call::Read, &[0, 1], 1_000);
}

/// Every byte of a sound session takes every value, alone: those that are `refused` are so
/// with 1, as others may be, and nothing else is wrong.
pub fn compare_bytes(
    comparison: &mut Comparison,
    mut given: Given,
    sound: &Session,
    refused: impl Fn(usize, u8) -> bool,
) {
    given.samples = vec![0x00, 0x02, 0x03];
    given.records = vec![0xEE; 2 * RECORD];
    for Altered { at, value, bytes } in altered(&to_bytes(sound)) {
        given.session = bytes.try_into().expect("a session's size");
        for call in Call::READING {
            let left = comparison.call(call, &given);
            assert!(left.number == 1 || !refused(at, value), "byte {at} is {value}");
            assert!(left.number <= 1, "nothing else is wrong");
        }
    }
}

/// Whether this value there makes the bytes those of no session, whatever the chip.
pub fn makes_no_session(at: usize, value: u8) -> bool {
    at == 0 && value != VERSION || at == PHASE_AT && value > 2 || FLAGS.contains(&at) && value > 1
}

/// Whether it makes them none that is sound for a newer chip in this phase.
pub fn makes_unsound(at: usize, value: u8, phase: Phase) -> bool {
    makes_no_session(at, value)
        || at == ARMED_AT && value != 0 && phase == Phase::Rest
        || at == LEFT_AT && value != 0
}

/// Bytes of the layout's version 1, which had the slow setting in byte 15, are no
/// session, whatever they held; nor are those of version 2, which ended at byte 18,
/// and of version 3, which ended at byte 19.
#[test]
fn old_bytes_are_refused_with_1() {
    let mut comparison = Comparison::new("refusals::old_bytes_are_refused_with_1");
    comparison.begin(0, Against::PageAfter);
    for old in [
        [1, 1, 0, 0, 0, 0, 0, 0, 0, 0, 0, 0, 0, 0, 0, 0, 0, 0, 0, 0],
        [1, 1, 0, 0, 0, 0, 0, 0, 0, 0, 1, 1, 1, 1, 1, 0, 0, 0, 0, 0],
        [1, 0, 1, 1, 3, 0, 5, 0, 0, 0, 1, 0, 0, 0, 0, 0, 1, 0, 0, 0],
        [1, 0, 0, 2, 2, 0, 2, 0x4A, 0x53, 1, 0, 0, 1, 1, 1, 1, 0, 0, 1, 1],
        [2, 1, 0, 0, 0, 0, 0, 0, 0, 0, 0, 0, 0, 0, 0, 0, 0, 0, 0, 0],
        [2, 0, 1, 1, 3, 0, 5, 0, 0, 0, 1, 0, 0, 0, 0, 1, 0, 0, 0, 0],
        [2, 0, 0, 2, 2, 0, 2, 0x4A, 0x53, 1, 0, 0, 1, 1, 1, 0, 0, 1, 1, 0],
        [3, 1, 0, 0, 0, 0, 0, 0, 0, 0, 0, 0, 0, 0, 0, 0, 0, 0, 0, 0],
        [3, 0, 1, 1, 3, 0, 5, 0, 0, 0, 1, 0, 0, 0, 0, 1, 0, 0, 0, 0],
        [3, 0, 0, 2, 2, 0, 2, 0x4A, 0x53, 1, 0, 0, 1, 1, 1, 0, 0, 1, 1, 0],
    ] {
        let mut given = Given::opened(&simple_map(16));
        given.session[..20].copy_from_slice(&old);
        for call in Call::READING {
            assert_eq!(comparison.call(call, &given), given.untouched(1));
        }
    }
}

#[test]
fn every_unsound_session_is_refused_with_1() {
    let mut comparison = Comparison::new("refusals::every_unsound_session_is_refused_with_1");
    for (seed, session) in (0..).zip(unsound_sessions()) {
        comparison.begin(seed, Against::PageAfter);
        let given = Given { session: to_bytes(&session), ..Given::opened(&simple_map(16)) };
        for call in Call::READING {
            assert_eq!(comparison.call(call, &given).number, 1, "{session:?}");
        }
    }
}

/// Both banks of every length up to a few more than n, and of lengths that a
/// narrow type would take for n.
#[test]
fn both_banks_have_to_fit() {
    let mut comparison = Comparison::new("refusals::both_banks_have_to_fit");
    let mut random = Random::new(4);
    let lengths = || (0..=20).chain([17 + 256, 17 + 8_192]);
    for active in lengths() {
        for buffer in lengths() {
            comparison.begin(active as u64, Against::PageAfter);
            let mut given = Given::opened(&simple_map(17));
            given.active = random.bytes(active);
            given.buffer = random.bytes(buffer);
            let expected = if active == 17 && buffer == 17 { 0 } else { 4 };
            for call in [Call::Open, Call::Read, Call::NextRecord] {
                assert_eq!(comparison.call(call, &given).number, expected, "{active}, {buffer}");
            }
        }
    }
}

#[test]
fn every_spare_bit_of_every_sample_is_looked_at() {
    let mut comparison = Comparison::new("refusals::every_spare_bit_of_every_sample_is_looked_at");
    let good = vec![0x0F; 100];
    for at in 0..good.len() {
        for bit in 4..8 {
            comparison.begin(at as u64, Against::PageAfter);
            let mut given = Given::opened(&simple_map(16));
            given.samples.clone_from(&good);
            given.samples[at] |= 1 << bit;
            for call in Call::READING {
                assert_eq!(comparison.call(call, &given).number, 5);
            }
        }
    }
}

/// Every room from none to more than enough.
#[test]
fn the_room_that_is_needed_is_exact() {
    compare_rooms("refusals::the_room_that_is_needed_is_exact", good_call);
}

/// Each room is filled with noise.
pub fn compare_rooms(test: &'static str, good_call: fn(&mut Random) -> Given) {
    let mut comparison = Comparison::new(test);
    for seed in 0..1_500 {
        comparison.begin(seed, Against::PageAfter);
        let mut random = Random::new(seed);
        let mut given = good_call(&mut random);
        for call in Call::READING {
            let needed = RECORD * given.records_due(call);
            for room in [0, 1, RECORD, needed - 1, needed, needed + 1, needed + 50] {
                given.records = random.bytes(room);
                let expected = if room < needed { 6 } else { 0 };
                assert_eq!(comparison.call(call, &given).number, expected, "{room} of {needed}");
            }
        }
    }
}
