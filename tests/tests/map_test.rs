//! The map test, by both sides: numbers 2 and 3.

use couplingnut_tests::both::map_test;
use couplingnut_tests::generate::maps::{
    count, entry_at, good_map, in_each_version, set_entry, simple_map, with_flags, Damage,
};
use couplingnut_tests::generate::near::{altered, cut, Altered};
use couplingnut_tests::generate::random::Random;

#[test]
fn good_maps_pass() {
    let mut random = Random::new(1);
    for _ in 0..2_000 {
        let count = count(&mut random);
        assert_eq!(map_test(&good_map(&mut random, count)), 0);
    }
}

#[test]
fn every_rule_broken_singly_has_its_number() {
    let mut random = Random::new(2);
    for damage in Damage::ALL {
        for _ in 0..300 {
            let count = count(&mut random);
            let mut map = good_map(&mut random, count);
            damage.apply(&mut random, &mut map);
            assert_eq!(map_test(&map), damage.number(), "{damage:?}, n = {count}: {map:02X?}");
        }
    }
}

#[test]
fn a_broken_header_comes_before_a_broken_entry() {
    let mut random = Random::new(3);
    let (headers, entries): (Vec<Damage>, Vec<Damage>) =
        Damage::ALL.into_iter().partition(|damage| damage.number() == 2);
    for header in headers {
        for &entry in &entries {
            let mut map = good_map(&mut random, 20);
            entry.apply(&mut random, &mut map);
            header.apply(&mut random, &mut map);
            assert_eq!(map_test(&map), 2, "{header:?} and {entry:?}");
        }
    }
}

#[test]
fn every_other_length_is_refused() {
    for map in in_each_version(&simple_map(18)) {
        assert_eq!(map_test(&map), 0);
        for short in cut(&map) {
            assert_eq!(map_test(&short), 2, "{} bytes", short.len());
        }
        for more in 1..=6 {
            assert_eq!(map_test(&[&map[..], &vec![2; more]].concat()), 2, "{more} bytes too many");
        }
    }
}

/// All numbers of two bytes as length and as n: only their own are taken.
#[test]
fn every_other_length_field_and_count_is_refused() {
    for map in in_each_version(&simple_map(18)) {
        for (at, number) in [0, 3].into_iter().flat_map(|at| (0..=0xFFFF_u16).map(move |n| (at, n)))
        {
            let mut changed = map.clone();
            changed[at..at + 2].copy_from_slice(&number.to_be_bytes());
            let expected = if changed == map { 0 } else { 2 };
            assert_eq!(map_test(&changed), expected, "{number} at byte {at}");
        }
    }
}

/// Ask 3 of document 02: bit 0 is a flag, the other bits are reserved. That is
/// number 2, and so comes before what is wrong with an entry.
#[test]
fn every_flag_byte_has_its_number() {
    let good = simple_map(16);
    let mut bad = good.clone();
    set_entry(&mut bad, 0x000D, [1, 0, 0x05]);
    for flags in 0..=255 {
        let reserved = flags > 1;
        assert_eq!(map_test(&with_flags(&good, flags)), if reserved { 2 } else { 0 });
        assert_eq!(map_test(&with_flags(&bad, flags)), if reserved { 2 } else { 3 });
    }
}

/// Each version has its own length, and its own bytes before the entries.
#[test]
fn every_version_byte_has_its_form() {
    for (map, own) in [(simple_map(16), 1), (with_flags(&simple_map(16), 0), 2)] {
        for (version, length) in (0..=255).flat_map(|version| [51, 52].map(|l| (version, l))) {
            let mut changed = map.clone();
            changed[1] = length;
            changed[2] = version;
            let expected = if version == own && length == 50 + own { 0 } else { 2 };
            assert_eq!(map_test(&changed), expected, "version {version}, length {length}");
        }
    }
}

/// A header of version 2 that ends before its flag byte.
#[test]
fn five_bytes_of_version_2_are_refused() {
    assert_eq!(map_test(&[0x00, 0x03, 0x02, 0x00, 0x00]), 2);
    assert_eq!(map_test(&[0x00, 0x34, 0x02, 0x00, 0x10]), 2);
    assert_eq!(map_test(&[0x00, 0x04, 0x02, 0x00, 0x00, 0x00]), 2);
}

/// The number of a map like this one with this value there.
fn number_with(map: &[u8], at: usize, value: u8) -> u8 {
    match at.checked_sub(entry_at(map, 0)) {
        _ if value == map[at] => 0,
        Some(entry) if may_stand(entry, value) => 0,
        Some(_) => 3,
        None if at == 5 && value <= 1 => 0,
        None => 2,
    }
}

/// Whether another value than the present one may stand at this byte of the
/// entries while all else is as in the simple map.
fn may_stand(entry: usize, value: u8) -> bool {
    match (entry / 3, entry % 3) {
        // The simple map's product number is 0x0101: one byte can't spoil it.
        (0x0003..=0x0006 | 0x000A | 0x000B, 2) => true,
        (0x0000 | 0x0001 | 0x0003..=0x0007 | 0x000A..=0x000F, _) => false,
        // Plain with mask 0xFF: of the other kinds only buffered allows that.
        (_, 0) => value == 3,
        (_, _) => true,
    }
}

#[test]
fn every_byte_of_a_map_is_looked_at() {
    for map in in_each_version(&simple_map(18)) {
        for Altered { at, value, bytes } in altered(&map) {
            let expected = number_with(&map, at, value);
            assert_eq!(map_test(&bytes), expected, "byte {at} is {value:#04X}");
        }
    }
}

#[test]
fn all_product_numbers_but_two_pass() {
    let mut map = simple_map(16);
    for product in 0..=0xFFFF_u16 {
        let [high, low] = product.to_be_bytes();
        set_entry(&mut map, 0x0004, [1, 0, low]);
        set_entry(&mut map, 0x0005, [1, 0, high]);
        let number = if product == 0x0000 || product == 0xFFFF { 3 } else { 0 };
        assert_eq!(map_test(&map), number, "{product:#06X}");
    }
}

/// The standard frowns on these; document 01 doesn't, so they aren't refused.
#[test]
fn what_document_01_does_not_ask_is_not_refused() {
    let mut map = simple_map(17);
    for (address, entry) in [
        (0x0002, [3, 0xFF, 0x00]),
        (0x0003, [1, 0x00, 0x00]),
        (0x0003, [1, 0x00, 0xFF]),
        (0x0008, [3, 0x00, 0xFF]),
        (0x0009, [0, 0x00, 0x00]),
        (0x0010, [1, 0x00, 0xFF]),
        (0x0010, [2, 0x00, 0xFF]),
    ] {
        set_entry(&mut map, address, entry);
        assert_eq!(map_test(&map), 0, "{entry:?} at {address:#06X}");
    }
}
