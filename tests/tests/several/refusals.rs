//! What the library refuses: every number with its causes and in its order, all left as it
//! was; the limit on samples, and room to the byte.

use couplingnut_tests::generate::calls::MOST_SAMPLES;
use couplingnut_tests::generate::maps::{good_map, simple_map, Damage};
use couplingnut_tests::generate::near::{altered, Altered};
use couplingnut_tests::generate::random::Random;
use couplingnut_tests::generate::sessions::every_piece;
use couplingnut_tests::generate::several::{any_call, any_list, any_wire, spoil, Wrong};
use couplingnut_tests::layout::to_bytes;
use couplingnut_tests::library;
use couplingnut_tests::several::{Comparison, Given, Sample};
use second::session::{Phase, Session};
use second::several::RECORD;

use super::{opened, with_wire};
use crate::refusals::makes_unsound;

/// A call that is done and has a record.
fn good_call(random: &mut Random) -> Given {
    loop {
        let given = any_call(random, 250);
        if given.records_due() > 0 {
            return given;
        }
    }
}

/// Every set of reasons: 17, 1, 2, 3, 4, 5, 6.
#[test]
fn the_first_number_that_applies_is_given() {
    library::assert_present();
    let mut comparison =
        Comparison::new("several::refusals::the_first_number_that_applies_is_given");
    for seed in 0..128 * 100 {
        comparison.begin(seed);
        let mut random = Random::new(seed);
        let mut given = good_call(&mut random);
        let wrongs: Vec<Wrong> =
            (0..).zip(Wrong::ALL).filter(|(i, _)| seed >> i & 1 == 1).map(|(_, w)| w).collect();
        spoil(&mut random, &mut given, &wrongs);
        let number = wrongs.first().map_or(0, |wrong| wrong.number());
        assert_eq!(comparison.call(&given).number, number, "seed {seed}: {wrongs:?}");
    }
}

/// Every way in which a map goes wrong.
#[test]
fn every_damage_of_a_map_is_refused() {
    library::assert_present();
    let mut comparison = Comparison::new("several::refusals::every_damage_of_a_map_is_refused");
    let damages = Damage::ALL.into_iter().flat_map(|damage| (0..40).map(move |i| (damage, i)));
    for (seed, (damage, _)) in (0..).zip(damages) {
        comparison.begin(seed);
        let mut random = Random::new(seed);
        let mut given = good_call(&mut random);
        damage.apply(&mut random, &mut given.map);
        let left = comparison.call(&given);
        assert_eq!(left.number, u32::from(damage.number()), "{damage:?}");
    }
}

/// Every byte of a session takes every value, in each place of a list.
#[test]
fn every_byte_of_a_session_is_looked_at() {
    library::assert_present();
    let mut comparison = Comparison::new("several::refusals::every_byte_of_a_session_is_looked_at");
    let map = simple_map(16);
    for (seed, piece) in (0..).zip(every_piece().into_iter().step_by(3)) {
        comparison.begin(seed);
        let chips = 1 + seed as usize % 8;
        let all_low = (0xFF00_u16 >> (8 - chips)) as u8;
        let samples = [[all_low, 0x00], [all_low, 0x02], [0xFF, 0x02]];
        let given = with_wire(&Given::opened(&map, chips), &samples);
        assert_every_byte_counts(&mut comparison, &given, seed as usize % chips, piece);
    }
    comparison.tally.assert_numbers(&[0, 1], 1_000);
}

fn assert_every_byte_counts(
    comparison: &mut Comparison,
    given: &Given,
    number: usize,
    piece: Session,
) {
    let mut given = given.clone();
    for Altered { at, value, bytes } in altered(&to_bytes(&piece)) {
        given.chips[number].session = bytes.try_into().expect("a session's size");
        let left = comparison.call(&given);
        let refused = makes_unsound(at, value, piece.phase);
        assert!(left.number == 1 || !refused, "byte {at} is {value}");
        assert!(left.number <= 1, "nothing else is wrong");
    }
}

/// 0 anywhere, 1 where bits of a read byte are taken, and nothing else.
#[test]
fn every_mark_is_looked_at() {
    library::assert_present();
    let mut comparison = Comparison::new("several::refusals::every_mark_is_looked_at");
    for (seed, piece) in (0..).zip(every_piece()) {
        comparison.begin(seed);
        let number = seed as usize % 8;
        let mut given = opened(8, &[[0xFF, 0x00]]);
        given.chips[number].session = to_bytes(&piece);
        let may_stand = piece.phase == Phase::Data && piece.read && piece.bits > 0;
        for contended in 0..=255 {
            given.chips[number].contended = contended;
            let stands = contended == 0 || contended == 1 && may_stand;
            assert_eq!(comparison.call(&given).number, u32::from(!stands), "{piece:?}");
        }
    }
}

/// Each select and each line at each place of a recording, for each number of chips.
#[test]
fn every_bit_of_a_sample_is_looked_at() {
    library::assert_present();
    let mut comparison = Comparison::new("several::refusals::every_bit_of_a_sample_is_looked_at");
    for chips in 1..=8 {
        comparison.begin(chips as u64);
        for (place, bit) in (0..6).flat_map(|place| (0..8).map(move |bit| (place, bit))) {
            let mut wire = [[0xFF, 0x00]; 6];
            wire[place][0] ^= 1 << bit;
            let absent = if bit < chips { 0 } else { 5 };
            assert_eq!(comparison.call(&opened(chips, &wire)).number, absent);
            wire[place] = [0xFF, 1 << bit];
            let spare = if (1..=3).contains(&bit) { 0 } else { 5 };
            assert_eq!(comparison.call(&opened(chips, &wire)).number, spare);
        }
    }
}

/// Every chip's two ranges, of every length about n, and of lengths that a narrow type
/// would take for n.
#[test]
fn every_bank_has_to_fit() {
    library::assert_present();
    let mut comparison = Comparison::new("several::refusals::every_bank_has_to_fit");
    let lengths = (0..40).chain([16 + 256, 16 + (1 << 16)]);
    for (seed, length) in (0..).zip(lengths.flat_map(|length| [length; 16])) {
        comparison.begin(seed);
        let mut given = opened(8, &[[0xFF, 0x00]]);
        let start = given.memory.len() as u64;
        given.memory.resize(start as usize + length as usize, 0xEE);
        let chip = &mut given.chips[seed as usize % 16 / 2];
        let bank = if seed % 2 == 0 { &mut chip.active } else { &mut chip.buffer };
        (bank.start, bank.length) = (start, length);
        let expected = if length == 16 { 0 } else { 4 };
        assert_eq!(comparison.call(&given).number, expected, "{length} bytes");
    }
}

/// Every room from none to more than enough, filled with noise.
#[test]
fn the_room_that_is_needed_is_exact() {
    library::assert_present();
    let mut comparison = Comparison::new("several::refusals::the_room_that_is_needed_is_exact");
    for seed in 0..1_500 {
        comparison.begin(seed);
        let mut random = Random::new(seed);
        let mut given = good_call(&mut random);
        let needed = RECORD * given.records_due();
        for room in [0, 1, RECORD, needed / RECORD * 7, needed - 1, needed, needed + 1, needed + 50]
        {
            given.records = random.bytes(room);
            let expected = if room < needed { 6 } else { 0 };
            assert_eq!(comparison.call(&given).number, expected, "{room} of {needed}");
        }
    }
}

/// 65,536 samples, with as many records as they can have, and one more; in the largest
/// memory that eight chips need.
#[test]
fn the_most_samples_are_read_and_one_more_is_refused() {
    library::assert_present();
    let subject = "several::refusals::the_most_samples_are_read_and_one_more_is_refused";
    let mut comparison = Comparison::new(subject);
    let mut random = Random::new(2);
    let map = good_map(&mut random, 8_192);
    // A cut of every chip every three samples.
    let cuts: Vec<Sample> = [[0x00, 0x00], [0x00, 0x02], [0xFF, 0x02]].repeat(MOST_SAMPLES / 3 + 1);
    let traffic = any_wire(&mut random, &map, 8, MOST_SAMPLES + 1);
    for (seed, wire) in (0..).zip([&cuts[..MOST_SAMPLES + 1], &traffic]) {
        comparison.begin(seed);
        let mut given = with_wire(&any_list(&mut random, &map, 8), wire);
        assert_eq!(comparison.call(&given).number, 5);
        given.samples.pop();
        assert_eq!(comparison.call(&given).number, 5);
        given.samples.pop();
        let left = comparison.call(&given);
        assert_eq!(left.number, 0);
        given.records.truncate(RECORD * left.count as usize);
        assert_eq!(comparison.call(&given).number, 0);
        given.records.pop();
        assert_eq!(comparison.call(&given).number, 6);
        *given.samples.last_mut().expect("there are samples") |= 0x40;
        assert_eq!(comparison.call(&given).number, 5);
    }
}
