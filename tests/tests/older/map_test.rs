//! The map test of older chips: numbers 2, 3 and 12.

use couplingnut_tests::both::{map_test, map_test_older};
use couplingnut_tests::generate::maps::{
    entries_of, entry_at, good_map, in_each_version, map_of, set_entry, with_flags, Damage, Flaw,
};
use couplingnut_tests::generate::near::{altered, cut, Altered};
use couplingnut_tests::generate::older::maps::{
    broken_older_entry, controls_of, good_older_map, simple_entries, simple_older_map,
};
use couplingnut_tests::generate::older::{another_top, any_older, some_olders, PARTS};
use couplingnut_tests::generate::random::Random;
use second::older::{Older, Part};

use super::AD9508;

#[test]
fn good_maps_of_both_versions_pass() {
    let mut random = Random::new(1);
    for older in some_olders(&mut random, 30) {
        for _ in 0..10 {
            assert_eq!(map_test_older(older, &good_older_map(&mut random, older)), 0);
        }
    }
    for flags in 0..=255 {
        let map = with_flags(&simple_older_map(AD9508), flags);
        assert_eq!(map_test_older(AD9508, &map), if flags <= 1 { 0 } else { 2 });
    }
}

#[test]
fn every_rule_broken_singly_has_its_number() {
    let mut random = Random::new(2);
    for _ in 0..2_000 {
        let older = any_older(&mut random);
        let good = good_older_map(&mut random, older);
        let flaw = random.pick(&Flaw::ALL);
        let mut map = good.clone();
        let count = older.top as usize + 1;
        let (address, entry) = broken_older_entry(&mut random, flaw, older.part, count);
        set_entry(&mut map, address, entry);
        assert_eq!(map_test_older(older, &map), 3, "{flaw:?} at {address:#06X}");
        let heads = Damage::ALL.into_iter().filter(|damage| damage.number() == 2);
        let damage = random.pick(&heads.collect::<Vec<_>>());
        let mut map = random.pick(&[&good, &map]).clone();
        damage.apply(&mut random, &mut map);
        assert_eq!(map_test_older(older, &map), 2, "{damage:?}");
    }
}

/// "Control entries at exactly 0x0000, 0x0005 and, for the AD9557, 0x0004": every
/// place by every kind.
#[test]
fn every_place_by_every_kind() {
    for part in PARTS {
        let older = Older { part, top: 0x0012 };
        for address in 0..=0x0012 {
            for kind in 0..=255 {
                for (mask, default) in [(0, 0), (0, 0x56), (0xFF, 0), (0xFF, 0xFF)] {
                    let mut map = simple_older_map(older);
                    set_entry(&mut map, address, [kind, mask, default]);
                    let stands = match kind {
                        _ if controls_of(part).contains(&address) => {
                            [kind, mask, default] == [4, 0, 0]
                        }
                        0 => mask == 0 && default == 0,
                        1 => mask == 0,
                        2 | 3 => true,
                        _ => false,
                    };
                    let found = map_test_older(older, &map);
                    assert_eq!(found, if stands { 0 } else { 3 }, "{kind} at {address:#06X}");
                }
            }
        }
    }
}

/// No place rules: what document 01 asks of vendor, product, scratch and blank
/// places is free.
#[test]
fn other_places_are_free() {
    for part in PARTS {
        for entry in [[0, 0, 0], [1, 0, 0xFF], [2, 0x0F, 0x33], [3, 0xFF, 0x00]] {
            let older = Older { part, top: 0x000F };
            let mut entries = simple_entries(older);
            for (address, free) in entries.iter_mut().enumerate() {
                if !controls_of(part).contains(&address) {
                    *free = entry;
                }
            }
            let map = map_of(&entries);
            assert_eq!(map_test_older(older, &map), 0, "{entry:?}");
        }
    }
}

/// Neither part's map is the other's, and none is a newer chip's or the other way
/// round.
#[test]
fn no_map_passes_for_another_chip() {
    let mut random = Random::new(3);
    for _ in 0..500 {
        let top = any_older(&mut random).top;
        let [one, other] = PARTS.map(|part| Older { part, top });
        let maps = [one, other].map(|older| good_older_map(&mut random, older));
        assert_eq!(map_test_older(one, &maps[1]), 3);
        assert_eq!(map_test_older(other, &maps[0]), 3);
        for map in maps {
            assert_eq!(map_test(&map), 3);
        }
        let newer = good_map(&mut random, top as usize + 1);
        assert_eq!(map_test_older(one, &newer), 3);
        assert_eq!(map_test_older(other, &newer), 3);
    }
}

/// Every top for maps of a few sizes, and tops that a narrow type would cut.
#[test]
fn the_top_is_n_less_1() {
    for part in PARTS {
        for right in [0x000F, 0x0010, 0x002C, 0x1FFE, 0x1FFF] {
            let map = simple_older_map(Older { part, top: right });
            let near = right.saturating_sub(40)..right + 40;
            let narrow = [8, 13, 16, 31, 32, 48, 63].map(|bit| (1 << bit) + right);
            let bounds = [0, 1, 0x000E, 0x000F, 0x1FFF, 0x2000, 0xFFFF, u64::MAX];
            for top in near.chain(narrow).chain(bounds) {
                let expected = if top == right { 0 } else { 12 };
                assert_eq!(map_test_older(Older { part, top }, &map), expected, "{top:#X}");
            }
        }
    }
}

/// 2, then 3, then 12.
#[test]
fn the_numbers_have_their_order() {
    let mut random = Random::new(4);
    for broken in 0..8 * 50 {
        let breaks = |i: u8| broken >> i & 1 == 1;
        let older = any_older(&mut random);
        let mut map = good_older_map(&mut random, older);
        if breaks(1) {
            let flaw = random.pick(&Flaw::ALL);
            let count = older.top as usize + 1;
            let (address, entry) = broken_older_entry(&mut random, flaw, older.part, count);
            set_entry(&mut map, address, entry);
        }
        if breaks(0) {
            map[2] = 0;
        }
        let top = if breaks(2) { another_top(&mut random, older.top) } else { older.top };
        let reasons = [(breaks(0), 2), (breaks(1), 3), (breaks(2), 12)];
        let number = reasons.iter().find(|(applies, _)| *applies).map_or(0, |(_, number)| *number);
        assert_eq!(map_test_older(Older { top, ..older }, &map), number, "{broken:03b}");
    }
}

/// Every byte of a map takes every value, and every length is cut or drawn out.
#[test]
fn every_byte_and_length_is_looked_at() {
    for part in PARTS {
        let older = Older { part, top: 0x0010 };
        for map in in_each_version(&simple_older_map(older)) {
            for Altered { at, value, bytes } in altered(&map) {
                let expected = number_with(part, &map, at, value);
                assert_eq!(map_test_older(older, &bytes), expected, "byte {at} is {value:#04X}");
            }
            for short in cut(&map) {
                assert_eq!(map_test_older(older, &short), 2);
            }
            for more in 1..=4 {
                assert_eq!(map_test_older(older, &[&map[..], &vec![2; more]].concat()), 2);
            }
        }
    }
}

/// The number of a map like this simple one with this value there.
fn number_with(part: Part, map: &[u8], at: usize, value: u8) -> u8 {
    match at.checked_sub(entry_at(map, 0)) {
        _ if value == map[at] => 0,
        None if at == 5 && value <= 1 => 0,
        None => 2,
        Some(place) if controls_of(part).contains(&(place / 3)) => 3,
        // Plain with mask 0xFF: of the other kinds only buffered allows that.
        Some(place) if place % 3 == 0 && value != 3 => 3,
        Some(_) => 0,
    }
}

/// A smallest and a largest map by hand.
#[test]
fn the_smallest_and_the_largest_map() {
    for part in PARTS {
        let smallest = simple_older_map(Older { part, top: 0x000F });
        assert_eq!((&smallest[..5], smallest.len()), (&[0x00, 0x33, 0x01, 0x00, 0x10][..], 53));
        let largest = simple_older_map(Older { part, top: 0x1FFF });
        assert_eq!((&largest[..5], largest.len()), (&[0x60, 0x03, 0x01, 0x20, 0x00][..], 24_581));
        assert_eq!(entries_of(&largest).len(), 0x2000);
        assert_eq!(map_test_older(Older { part, top: 0x000F }, &smallest), 0);
        assert_eq!(map_test_older(Older { part, top: 0x1FFF }, &largest), 0);
    }
}
