//! What the reader's calls for older chips refuse: every number with its order, every
//! byte of a session, banks, tops and room.

use couplingnut_tests::calls::{Call, Comparison, Given};
use couplingnut_tests::generate::calls::Wrong;
use couplingnut_tests::generate::older::maps::{good_older_map, simple_older_map};
use couplingnut_tests::generate::older::sessions::{
    every_older_piece, sound_older_session, unsound_older_sessions,
};
use couplingnut_tests::generate::older::{another_top, any_older, PARTS};
use couplingnut_tests::generate::random::Random;
use couplingnut_tests::guarded::Against;
use couplingnut_tests::layout::{to_bytes, LEFT_AT};
use second::older::Older;

use crate::refusals::{
    compare_bytes, compare_reasons, compare_rooms, makes_no_session, with_a_record,
};

/// A call that is done and has a record.
fn good_call(random: &mut Random) -> Given {
    let older = any_older(random);
    let older = Older { top: older.top.min(0x0040), ..older };
    let given = Given::opened_by(Some(older), &good_older_map(random, older));
    with_a_record(random, given)
}

/// Every set of reasons: 1, 2, 3, 4, 12, 16, 5, 6.
#[test]
fn twelve_comes_after_4_and_before_5() {
    let mut comparison = Comparison::new("older::refusals::twelve_comes_after_4_and_before_5");
    compare_reasons(&mut comparison, &Wrong::OLDER, 60, good_call);
    let tally = &comparison.tally;
    tally.assert_numbers(Call::Read, &[0, 1, 2, 3, 4, 5, 6, 12, 16], 50);
    tally.assert_numbers(Call::Open, &[0, 2, 3, 4, 12], 50);
}

/// Every byte of sessions in every piece takes every value, alone; the bytes left have only
/// values that are sound or not.
#[test]
fn every_byte_of_a_session_is_looked_at() {
    let mut comparison = Comparison::new("older::refusals::every_byte_of_a_session_is_looked_at");
    for (seed, piece) in (0..).zip(every_older_piece()) {
        comparison.begin(seed, Against::PageAfter);
        let older = Older { part: PARTS[seed as usize % 2], top: 0x0011 };
        let given = Given::opened_by(Some(older), &simple_older_map(older));
        compare_bytes(&mut comparison, given, &piece, |at, value| {
            makes_no_session(at, value) || at == LEFT_AT && value > 4
        });
    }
    comparison.tally.assert_numbers(Call::Read, &[0, 1], 1_000);
}

#[test]
fn every_unsound_session_is_refused_with_1() {
    let mut comparison =
        Comparison::new("older::refusals::every_unsound_session_is_refused_with_1");
    for (part, top) in
        PARTS.into_iter().flat_map(|part| [0x000F, 0x002C, 0x1FFF].map(|t| (part, t)))
    {
        let older = Older { part, top };
        let given = Given::opened_by(Some(older), &simple_older_map(older));
        for (seed, session) in (0..).zip(unsound_older_sessions(top as u16)) {
            comparison.begin(seed, Against::PageAfter);
            let given = Given { session: to_bytes(&session), ..given.clone() };
            for call in Call::READING {
                assert_eq!(comparison.call(call, &given), given.untouched(1), "{session:?}");
            }
        }
    }
}

/// Any top but the map's with any sound session: 1 where the address is above it,
/// else 12, for all three calls.
#[test]
fn every_other_top_is_refused() {
    let mut comparison = Comparison::new("older::refusals::every_other_top_is_refused");
    for seed in 0..10_000 {
        comparison.begin(seed, Against::PageAfter);
        let mut random = Random::new(seed);
        let mut given = good_call(&mut random);
        let older = given.older.expect("an older chip");
        let session = sound_older_session(&mut random, older.top);
        let top = another_top(&mut random, older.top);
        given.session = to_bytes(&session);
        given.older = Some(Older { top, ..older });
        let expected = if u64::from(session.address) > top { 1 } else { 12 };
        for call in Call::READING {
            assert_eq!(comparison.call(call, &given).number, expected, "top {top:#X}");
        }
        assert_eq!(comparison.call(Call::Open, &given).number, 12);
    }
}

/// Both banks of every length up to a few more than n; 4 comes before 12.
#[test]
fn both_banks_have_to_fit() {
    let mut comparison = Comparison::new("older::refusals::both_banks_have_to_fit");
    let mut random = Random::new(4);
    let lengths = || (0..=20).chain([17 + 256, 17 + 8_192]);
    for (active, buffer) in lengths().flat_map(|active| lengths().map(move |b| (active, b))) {
        comparison.begin(active as u64, Against::PageAfter);
        let right = Older { part: PARTS[active % 2], top: 0x0010 };
        let mut given = Given::opened_by(Some(right), &simple_older_map(right));
        given.active = random.bytes(active);
        given.buffer = random.bytes(buffer);
        let fits = active == 17 && buffer == 17;
        for (top, expected) in [(0x0010, 0), (0x0011, 12), (1 << 20, 12)] {
            given.older = Some(Older { top, ..right });
            let expected = if fits { expected } else { 4 };
            for call in [Call::Open, Call::Read, Call::NextRecord] {
                assert_eq!(comparison.call(call, &given).number, expected, "{active}, {buffer}");
            }
        }
    }
}

/// Every room from none to more than enough.
#[test]
fn the_room_that_is_needed_is_exact() {
    compare_rooms("older::refusals::the_room_that_is_needed_is_exact", good_call);
}
