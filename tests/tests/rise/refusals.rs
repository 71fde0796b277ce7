//! Marks that no session has.

use couplingnut_tests::calls::{Call, Comparison, Given};
use couplingnut_tests::generate::maps::with_flags;
use couplingnut_tests::generate::older::maps::simple_older_map;
use couplingnut_tests::generate::older::sessions::every_older_piece;
use couplingnut_tests::generate::older::PARTS;
use couplingnut_tests::generate::sessions::{every_piece, with_every_setting};
use couplingnut_tests::guarded::Against;
use couplingnut_tests::layout::{to_bytes, ARMED_AT};
use second::older::Older;
use second::reader::RECORD;
use second::session::Session;

use super::{chip_of, flagged_chip, map_with};

/// Number 1 for either call, with and without the flag; the bytes come back.
fn assert_unsound(comparison: &mut Comparison, given: &Given, sessions: &[Session]) {
    for session in sessions.iter().copied().flat_map(with_every_setting) {
        for armed in [1, 0xFF] {
            let mut given = given.clone();
            given.session = to_bytes(&session);
            given.session[ARMED_AT] = armed;
            for call in Call::READING {
                assert_eq!(comparison.call(call, &given), given.untouched(1), "{session:?}");
            }
        }
    }
}

#[test]
fn armed_at_rest_is_number_1() {
    let mut comparison = Comparison::new("rise::refusals::armed_at_rest_is_number_1");
    comparison.begin(0, Against::PageAfter);
    for flags in [0, 1] {
        let given = chip_of(&map_with(flags)).given(&[0x00, 0x01], &[0xEE; RECORD]);
        assert_unsound(&mut comparison, &given, &[Session::opened()]);
    }
}

/// At rest, passing over, in an instruction, in data and at a stall.
#[test]
fn armed_in_an_older_chip_is_number_1() {
    let mut comparison = Comparison::new("rise::refusals::armed_in_an_older_chip_is_number_1");
    comparison.begin(0, Against::PageAfter);
    for part in PARTS {
        let older = Older { part, top: 0x0017 };
        for flags in [0, 1] {
            let map = with_flags(&simple_older_map(older), flags);
            let mut given = Given::opened_by(Some(older), &map);
            given.samples = vec![0x00, 0x01];
            given.records = vec![0xEE; RECORD];
            assert_unsound(&mut comparison, &given, &every_older_piece());
        }
    }
}

/// Each value of byte 20 above 1 is no session, in whatever phase.
#[test]
fn other_marks_are_no_session() {
    let mut comparison = Comparison::new("rise::refusals::other_marks_are_no_session");
    comparison.begin(0, Against::PageAfter);
    let mut given = flagged_chip().given(&[0x00, 0x01], &[0xEE; RECORD]);
    for piece in every_piece() {
        for mark in 2..=255 {
            given.session = to_bytes(&piece);
            given.session[ARMED_AT] = mark;
            for call in Call::READING {
                assert_eq!(comparison.call(call, &given), given.untouched(1));
            }
        }
    }
}
