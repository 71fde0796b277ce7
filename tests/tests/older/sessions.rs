//! Which sessions an older chip goes on from, and which are a newer chip's.

use couplingnut_tests::chip::Chip;
use couplingnut_tests::generate::maps::simple_map;
use couplingnut_tests::generate::older::maps::{good_older_map, simple_older_map};
use couplingnut_tests::generate::older::sessions::{
    every_older_piece, sound_older_session, unsound_older_sessions,
};
use couplingnut_tests::generate::older::{any_older, some_olders, PARTS};
use couplingnut_tests::generate::random::Random;
use couplingnut_tests::generate::sessions::with_every_setting;
use second::older::Older;
use second::reader::{most_records, RECORD};
use second::rules::Rules;
use second::session::{Phase, Session, CSB, SCLK};
use second::settings::Settings;
use second::Answer;

use super::{simple_chip, AD9508};

/// The number of a reading without samples in this session.
fn number(chip: &Chip, session: Session) -> u8 {
    let mut chip = Chip { session, ..chip.clone() };
    let before = chip.clone();
    let answer = chip.call(&[], &mut [0xEE; RECORD]);
    assert_eq!(answer.count, 0);
    assert_eq!(chip, before);
    answer.number
}

#[test]
fn every_kind_of_sound_session_is_read_on() {
    for part in PARTS {
        let chip = simple_chip(Older { part, top: 0x002C }, false);
        for piece in every_older_piece() {
            for address in [0, 5, 0x002C] {
                let address = if piece.phase == Phase::Data { address } else { 0 };
                for session in with_every_setting(Session { address, ..piece }) {
                    assert_eq!(number(&chip, session), 0, "{session:?}");
                }
            }
        }
    }
}

#[test]
fn every_condition_of_soundness_is_looked_at() {
    let mut random = Random::new(1);
    // Fields of this implementation that hold more than they are meant for.
    let rest = Session::opened();
    let data = Session { levels: 0, phase: Phase::Data, left: 4, ..rest };
    let overfull = [
        Session { levels: CSB | 4, ..rest },
        Session { in_use: Settings::BUFFER_READBACK, ..data },
    ];
    for older in some_olders(&mut random, 1) {
        let chip = simple_chip(older, false);
        for session in unsound_older_sessions(older.top as u16).into_iter().chain(overfull) {
            assert_eq!(number(&chip, session), 1, "{session:?} with top {:#06X}", older.top);
        }
    }
}

/// Sound sessions lead to sound ones, and to no more records than are foreseen.
#[test]
fn sound_sessions_stay_sound() {
    let mut random = Random::new(2);
    for _ in 0..5_000 {
        let older = any_older(&mut random);
        let older = Older { top: older.top.min(0x0100), ..older };
        let mut chip = Chip::opened_by(Some(older), &good_older_map(&mut random, older));
        chip.session = sound_older_session(&mut random, older.top);
        assert!(older.is_sound(&chip.session), "{:?}", chip.session);
        let length = random.below(200);
        let samples: Vec<u8> = (0..length).map(|_| random.byte() & 0x0F).collect();
        let records = chip.read(&samples).len();
        assert!(records <= most_records(length), "{records} records of {length} samples");
        assert!(older.is_sound(&chip.session), "{:?}", chip.session);
    }
}

/// "An address up to the top" is judged by the top that is named, good or bad, and
/// by document 01's 0x7FFF; then 12 judges the top.
#[test]
fn the_named_top_bounds_the_address() {
    let tops = (0..0x0040).chain([
        0x00FF,
        0x1FFF,
        0x2000,
        0x7FFE,
        0x7FFF,
        0x8000,
        0xFFFF,
        0x1_0000,
        0x1_0005,
        (1 << 32) + 5,
        u64::MAX,
    ]);
    for top in tops {
        for part in PARTS {
            let mut chip = simple_chip(Older { part, ..AD9508 }, false);
            chip.older = Some(Older { part, top });
            for address in
                [0, 5, 0x0E, 0x0F, 0x2B, 0x2C, 0x2D, 0xFF, 0x2000, 0x7FFF, 0x8000, 0xFFFF]
            {
                for (levels, left) in [(0, 4), (SCLK, 1), (CSB, 3)] {
                    let data = Session { phase: Phase::Data, levels, left, ..Session::opened() };
                    let session = Session { address, ..data };
                    let expected = match u64::from(address) {
                        beyond if beyond > top || beyond > 0x7FFF => 1,
                        _ if top != 0x002C => 12,
                        _ => 0,
                    };
                    assert_eq!(number(&chip, session), expected, "{address:#06X}, top {top:#X}");
                }
            }
            assert_eq!(number(&chip, Session::opened()), if top == 0x002C { 0 } else { 12 });
        }
    }
}

/// "A newer chip's session has none of this": bytes left, passing over and stalls are
/// number 1 there.
#[test]
fn a_newer_chip_refuses_what_is_an_older_ones() {
    let newer = Chip::opened(&simple_map(0x002D));
    for piece in every_older_piece() {
        for session in with_every_setting(piece) {
            let passes = session.phase == Phase::Rest && session.levels & CSB == 0;
            let expected = if passes || session.left != 0 { 1 } else { 0 };
            assert_eq!(number(&newer, session), expected, "{session:?}");
        }
    }
    for left in 1..=255 {
        for (phase, levels) in
            [(Phase::Rest, CSB), (Phase::Instruction, 0), (Phase::Data, 0), (Phase::Data, CSB)]
        {
            let session = Session { phase, levels, left, ..Session::opened() };
            assert_eq!(number(&newer, session), 1, "{session:?}");
        }
    }
    // Waiting in data, without the bytes left.
    let stalled = Session { phase: Phase::Data, ..Session::opened() };
    assert_eq!(number(&newer, stalled), 1);
}

/// Opening gives the same session as for a newer chip, and puts each default in both
/// banks.
#[test]
fn opening_an_older_chip() {
    let mut random = Random::new(3);
    for older in some_olders(&mut random, 3) {
        let map = good_older_map(&mut random, older);
        let chip = Chip::opened_by(Some(older), &map);
        let first = map.len() - 3 * (older.top as usize + 1);
        let defaults: Vec<u8> = map[first..].chunks(3).map(|entry| entry[2]).collect();
        assert_eq!(chip.session, Session::opened());
        assert_eq!((&chip.active, &chip.buffer), (&defaults, &defaults));
    }
}

/// An empty trace, and one as long as there may be.
#[test]
fn empty_and_long_traces() {
    for part in PARTS {
        let older = Older { part, top: 0x000F };
        let mut chip = Chip::opened_by(Some(older), &simple_older_map(older));
        assert_eq!(chip.call(&[], &mut []), Answer { number: 0, count: 0 });
        let high = vec![0x01; 65_537];
        assert_eq!(chip.call(&high[1..], &mut []), Answer { number: 0, count: 0 });
        assert_eq!(chip.call(&high, &mut []), Answer { number: 5, count: 0 });
    }
}
