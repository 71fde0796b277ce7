//! The converter, by both sides: Ask 3 of document 02.

use couplingnut_tests::both::{map_test, to_version_1, to_version_2};
use couplingnut_tests::generate::maps::{
    count, entries_of, flagged_map_of, good_map, in_each_version, map_of, maps_near, set_entry,
    simple_map, with_flags, Damage,
};
use couplingnut_tests::generate::random::Random;
use couplingnut_tests::made::{held, made_in};
use second::Answer;

/// A call of the converter.
type Convert = fn(&[u8], &mut [u8]) -> Answer;

const BOTH: [Convert; 2] = [to_version_1, to_version_2];

/// More than any map has.
const ROOMY: usize = 24_582 + 7;

/// What the call makes in so much room, or the number that refuses it.
fn converted(convert: Convert, map: &[u8], room: usize) -> Result<Vec<u8>, u8> {
    made_in(&held(room), |out| convert(map, out))
}

#[test]
fn the_smallest_map_by_hand() {
    let old = simple_map(16);
    assert_eq!(old[..5], [0x00, 0x33, 0x01, 0x00, 0x10]);
    let new = converted(to_version_2, &old, ROOMY).expect("a good map");
    assert_eq!(new[..6], [0x00, 0x34, 0x02, 0x00, 0x10, 0x00]);
    assert_eq!((new.len(), &new[6..]), (54, &old[5..]));
    assert_eq!(converted(to_version_1, &new, ROOMY), Ok(old));
}

#[test]
fn the_largest_map_by_hand() {
    let old = simple_map(8_192);
    let new = converted(to_version_2, &old, 24_582).expect("a good map");
    assert_eq!(new[..6], [0x60, 0x04, 0x02, 0x20, 0x00, 0x00]);
    assert_eq!((new.len(), &new[6..]), (24_582, &old[5..]));
    assert_eq!(converted(to_version_2, &old, 24_581), Err(11));
    assert_eq!(converted(to_version_1, &new, 24_581), Ok(old));
    assert_eq!(converted(to_version_1, &new, 24_580), Err(11));
}

#[test]
fn there_and_back_every_byte_is_as_it_was() {
    let mut random = Random::new(1);
    for _ in 0..1_500 {
        let count = count(&mut random);
        let entries = entries_of(&good_map(&mut random, count));
        let (old, new) = (map_of(&entries), flagged_map_of(0, &entries));
        assert_eq!(converted(to_version_2, &old, ROOMY).as_ref(), Ok(&new));
        assert_eq!(converted(to_version_1, &new, ROOMY).as_ref(), Ok(&old));
        assert_eq!((map_test(&old), map_test(&new)), (0, 0));
    }
}

#[test]
fn a_map_of_the_wished_version_is_copied() {
    let mut random = Random::new(2);
    for _ in 0..500 {
        let count = count(&mut random);
        let entries = entries_of(&good_map(&mut random, count));
        let old = map_of(&entries);
        assert_eq!(converted(to_version_1, &old, ROOMY).as_ref(), Ok(&old));
        for flags in [0, 1] {
            let new = flagged_map_of(flags, &entries);
            assert_eq!(converted(to_version_2, &new, ROOMY).as_ref(), Ok(&new));
        }
    }
}

#[test]
fn every_flag_byte_has_its_number() {
    let old = simple_map(17);
    for flags in 0..=255 {
        let new = with_flags(&old, flags);
        let (back, copied) = match flags {
            0 => (Ok(old.clone()), Ok(new.clone())),
            1 => (Err(13), Ok(new.clone())),
            _ => (Err(2), Err(2)),
        };
        assert_eq!(converted(to_version_1, &new, ROOMY), back, "{flags:#04X}");
        assert_eq!(converted(to_version_2, &new, ROOMY), copied, "{flags:#04X}");
    }
}

#[test]
fn the_room_that_is_needed_is_exact() {
    for count in [16, 17, 300, 8_191, 8_192] {
        let old = simple_map(count);
        for map in [old.clone(), with_flags(&old, 0)] {
            for (convert, due) in
                [(to_version_1 as Convert, 5 + 3 * count), (to_version_2, 6 + 3 * count)]
            {
                for room in [0, 1, 5, 6, due - 2, due - 1, due, due + 1, due + 50] {
                    let made = converted(convert, &map, room).map(|made| made.len());
                    assert_eq!(made, if room < due { Err(11) } else { Ok(due) }, "{room} of {due}");
                }
            }
        }
    }
}

/// "13, after 3" and "11, after 13": every set of reasons.
#[test]
fn the_numbers_have_their_order() {
    for broken in 0..16 {
        let breaks = |i: u8| broken >> i & 1 == 1;
        let mut map = with_flags(&simple_map(17), u8::from(breaks(2)));
        if breaks(1) {
            set_entry(&mut map, 0x000C, [1, 0, 0x57]);
        }
        if breaks(0) {
            map[5] |= 0x80;
        }
        for (convert, due, flagged) in
            [(to_version_1 as Convert, 56, true), (to_version_2, 57, false)]
        {
            let reasons =
                [(breaks(0), 2), (breaks(1), 3), (breaks(2) && flagged, 13), (breaks(3), 11)];
            let number = reasons.iter().find(|(applies, _)| *applies).map(|(_, number)| *number);
            let made = converted(convert, &map, due - usize::from(breaks(3)));
            assert_eq!(made.err(), number, "{broken:04b}");
        }
    }
}

/// Every rule of a map broken singly, from both versions, with room and without.
#[test]
fn damaged_maps_are_not_converted() {
    let mut random = Random::new(3);
    for damage in Damage::ALL {
        for _ in 0..100 {
            let count = count(&mut random).min(600);
            let mut map = good_map(&mut random, count);
            damage.apply(&mut random, &mut map);
            for convert in BOTH {
                let room = random.pick(&[0, 40, map.len(), ROOMY]);
                let made = converted(convert, &map, room);
                assert_eq!(made, Err(damage.number()), "{damage:?} of {map:02X?}");
            }
        }
    }
}

/// Every byte of a header and of the first entries takes every value, and every
/// length is cut or drawn out: what the map test refuses isn't converted.
#[test]
fn the_converter_looks_at_every_byte_and_length() {
    for map in in_each_version(&simple_map(17)) {
        maps_near(&map).for_each(|near| compare_with_map_test(&near));
    }
}

/// Both conversions give the map test's number, or else what they are for.
fn compare_with_map_test(map: &[u8]) {
    let number = map_test(map);
    let flagged = number == 0 && map[2] == 2 && map[5] == 1;
    let whole = |version: u8| match (number, version) {
        (0, 1) if flagged => Err(13),
        (0, 1) => Ok(map_of(&entries_of(map))),
        (0, _) => Ok(with_flags(map, u8::from(flagged))),
        _ => Err(number),
    };
    assert_eq!(converted(to_version_1, map, 200), whole(1), "{map:02X?}");
    assert_eq!(converted(to_version_2, map, 200), whole(2), "{map:02X?}");
}

/// A map of another version than the two is one of no version.
#[test]
fn other_versions_are_refused_with_2() {
    for form in [simple_map(16), with_flags(&simple_map(16), 0)] {
        for version in (0..=255).filter(|&version| version != form[2]) {
            let mut map = form.clone();
            map[2] = version;
            for convert in BOTH {
                assert_eq!(converted(convert, &map, ROOMY), Err(2), "version {version}");
            }
        }
    }
}
