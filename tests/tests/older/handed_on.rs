//! Sessions handed from chip to chip: no session names its part.

use couplingnut_tests::by_hand::clocked;
use couplingnut_tests::chip::Chip;
use couplingnut_tests::generate::maps::{good_map, simple_map};
use couplingnut_tests::generate::older::maps::{good_older_map, simple_older_map};
use couplingnut_tests::generate::older::sessions::sound_older_session;
use couplingnut_tests::generate::older::PARTS;
use couplingnut_tests::generate::random::Random;
use couplingnut_tests::generate::sessions::sound_session;
use second::older::{Older, Part};
use second::session::{Phase, Session, CSB};
use second::settings::Settings;

use super::{bytes, instruction, simple_chip, AD9508};

const OTHER: Older = Older { part: Part::Ad9557, top: 0x002C };

/// The number of a reading without samples.
fn number(chip: &Chip, session: Session) -> u8 {
    Chip { session, ..chip.clone() }.call(&[], &mut []).number
}

/// "At rest and in an instruction every session fits every part", but for an armed
/// one, which is a newer chip's; in data each family's is unsound for the other; between the parts everything passes, up to the
/// new top.
#[test]
fn what_passes_from_chip_to_chip() {
    let mut random = Random::new(1);
    let newer = Chip::opened(&simple_map(0x002D));
    let olders = PARTS.map(|part| simple_chip(Older { part, top: 0x002C }, false));
    let smaller = PARTS.map(|part| simple_chip(Older { part, top: 0x0020 }, false));
    let mut seen = [0; 4];
    for _ in 0..20_000 {
        let session = sound_session(&mut random);
        assert_eq!(number(&newer, session), 0);
        let expected = u8::from(session.phase == Phase::Data || session.armed);
        for chip in &olders {
            assert_eq!(number(chip, session), expected, "{session:?}");
        }
        seen[usize::from(expected)] += 1;

        let session = sound_older_session(&mut random, 0x002C);
        let passes = session.phase == Phase::Rest && session.levels & CSB == 0;
        let expected = u8::from(passes || session.phase == Phase::Data);
        assert_eq!(number(&newer, session), expected, "{session:?}");
        for chip in &olders {
            assert_eq!(number(chip, session), 0, "{session:?}");
        }
        for chip in &smaller {
            assert_eq!(number(chip, session), u8::from(session.address > 0x0020), "{session:?}");
        }
        seen[2 + usize::from(expected)] += 1;
    }
    assert!(seen.iter().all(|&times| times > 1_000), "{seen:?}");
}

/// Half an instruction goes on under another chip, in the bit order that it has.
#[test]
fn half_an_instruction_goes_on_under_another_chip() {
    let word = clocked("0 01 0000000100000");
    let data = bytes(&[0x12, 0x34], false);
    let newer = Chip::opened(&simple_map(0x002D));
    let older = simple_chip(AD9508, false);
    for bits in 0..16 {
        let (before, after) = word.split_at(2 * bits);
        let (first, rest) = ([&[0x00][..], before].concat(), [after, &data, &[0x01]].concat());

        let mut begun = newer.clone();
        begun.read(&first);
        let mut ended = Chip { session: begun.session, ..older.clone() };
        assert_eq!(ended.read(&rest), ["W 0020 12 12 1 12", "W 001F 34 34 1 34"]);

        // To a newer chip the length bits are of the address.
        let mut begun = older.clone();
        begun.read(&first);
        let mut ended = Chip { session: begun.session, ..newer.clone() };
        assert_eq!(ended.read(&rest), ["W 2020 12 00 0 00", "W 201F 34 00 0 00"]);
    }
}

/// A run goes on under the other part, stalled or not, by that part's registers.
#[test]
fn a_run_goes_on_under_the_other_part() {
    let mut chip = simple_chip(AD9508, true);
    chip.read(&[&[0x00][..], &instruction(false, 2, 0x0003, true), &bytes(&[1], true)].concat());
    for stall in [&[][..], &[0x01, 0x00]] {
        let mut other = simple_chip(OTHER, false);
        other.session = chip.session;
        let rest = [stall, &bytes(&[0xFF, 0xFF], true), &[0x01]].concat();
        assert_eq!(other.read(&rest), ["W 0004 FF 01 3 00", "W 0005 FF 00 4 00"]);
        assert!(other.session.settings.has(Settings::BUFFER_READBACK));
        let mut same = chip.clone();
        assert_eq!(same.read(&rest), ["W 0004 FF FF 1 FF", "W 0005 FF 00 4 00"]);
        assert!(!same.session.settings.has(Settings::BUFFER_READBACK));
    }
}

/// The settings go along: a newer chip's LSB first and buffer readback are an older
/// one's, and the three that don't count come back.
#[test]
fn settings_go_along() {
    let mut newer = Chip::opened(&simple_map(0x002D));
    newer.write(0x0001, &[0xA0]);
    newer.write(0x0000, &[0x7E]);
    let settings = newer.session.settings;
    let mut older = simple_chip(OTHER, false);
    older.session = newer.session;
    assert_eq!(older.due(0x0000), 0x40);
    assert_eq!(older.due(0x0004), 0x01);
    assert_eq!(older.session.settings, settings);
    assert_eq!(older.write(0x0000, &[0x00]), ["W 0000 00 00 3 00"]);
    assert_eq!(older.write(0x0004, &[0x00]), ["W 0004 00 00 3 00"]);
    newer.session = older.session;
    let kept = [Settings::ASCENDING, Settings::SDO_ACTIVE, Settings::SINGLE_INSTRUCTION];
    let kept = kept.into_iter().fold(Settings::NONE, Settings::with);
    assert_eq!(newer.session.settings, kept);
    assert_eq!(newer.due(0x0000), 0x3C);
}

/// A session led by any samples on one part is sound on the other with the same top.
#[test]
fn what_samples_lead_to_passes_between_the_parts() {
    let mut random = Random::new(2);
    for _ in 0..2_000 {
        let top = random.between(0x000F, 0x0060) as u64;
        let olders = PARTS.map(|part| Older { part, top });
        let mut chips =
            olders.map(|older| Chip::opened_by(Some(older), &good_older_map(&mut random, older)));
        chips[0].session = sound_older_session(&mut random, top);
        for _ in 0..6 {
            let samples: Vec<u8> = (0..random.below(60)).map(|_| random.byte() & 0x0F).collect();
            chips[0].read(&samples);
            chips[1].session = chips[0].session;
            chips.swap(0, 1);
        }
    }
}

/// A newer map is refused by an older chip's call with the same session, and the
/// other way round, with 3.
#[test]
fn maps_do_not_go_along() {
    let mut random = Random::new(3);
    for part in PARTS {
        let older = Older { part, top: 0x0020 };
        let newer_map = good_map(&mut random, 0x0021);
        let older_map = simple_older_map(older);
        let chip = Chip::opened_by(Some(older), &older_map);
        let mixed = Chip { map: newer_map.clone(), ..chip.clone() };
        assert_eq!(number(&mixed, Session::opened()), 3);
        let mixed = Chip { map: older_map, ..Chip::opened(&newer_map) };
        assert_eq!(number(&mixed, Session::opened()), 3);
    }
}
