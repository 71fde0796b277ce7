//! Mending a map, by both sides: Ask 12 of document 02.

use couplingnut_tests::both::{map_test, mend, try_mend};
use couplingnut_tests::generate::maps::{
    count, count_of, entries_of, entry_at, good_map, in_each_version, map_of, maps_near, set_entry,
    simple_map, with_flags, Damage,
};
use couplingnut_tests::generate::mends::{any_mending, scrambled_map, slipped_map, Mending};
use couplingnut_tests::generate::random::Random;
use couplingnut_tests::made::{assert_agreed, held, made_in};
use couplingnut_tests::tally::assert_numbers;

const MAPS: u64 = 60_000;

/// More than any list takes: five bytes for each of 8,192 registers.
const ROOMY: usize = 40_960 + 7;

/// The mended map and the list, made in so much room, or the number that refuses
/// them. A refusal leaves all as it was.
fn mended_in(map: &[u8], room: usize) -> Result<(Vec<u8>, Vec<u8>), u8> {
    let mut now = map.to_vec();
    let made = made_in(&held(room), |list| mend(&mut now, list));
    if made.is_err() {
        assert_eq!(now, map, "a refusal leaves the map");
    }
    made.map(|list| (now, list))
}

fn mended(map: &[u8]) -> (Vec<u8>, Vec<u8>) {
    mended_in(map, room_for(map)).expect("a head and a product number that stand")
}

/// More than the list of this map takes.
fn room_for(map: &[u8]) -> usize {
    5 * count_of(map) + 7
}

/// The bytes that the list of this map takes.
fn needed(map: &[u8]) -> usize {
    second::mend::mend(&mut map.to_vec(), &mut vec![0; room_for(map)]).count
}

#[test]
fn a_typed_map_by_hand() {
    let good = simple_map(18);
    let slips = [
        (0x0000, [3, 0x11, 0x22], [4, 0x00, 0x00]),
        (0x0002, [4, 0x00, 0x00], [0, 0x00, 0x00]),
        (0x0003, [9, 0x01, 0x07], [1, 0x00, 0x07]),
        (0x0007, [0, 0x00, 0x80], [0, 0x00, 0x00]),
        (0x000A, [0, 0xF0, 0x5A], [2, 0xFF, 0x5A]),
        (0x000C, [1, 0x00, 0x65], [1, 0x00, 0x56]),
        (0x000D, [2, 0xFF, 0x40], [1, 0x00, 0x04]),
        (0x0010, [1, 0xFF, 0x33], [1, 0x00, 0x33]),
        (0x0011, [7, 0x12, 0x34], [0, 0x00, 0x00]),
    ];
    let (mut typed, mut due) = (good.clone(), good);
    for (address, was, becomes) in slips {
        set_entry(&mut typed, address, was);
        set_entry(&mut due, address, becomes);
    }
    let list = [
        [0x00, 0x00, 3, 0x11, 0x22],
        [0x00, 0x02, 4, 0x00, 0x00],
        [0x00, 0x03, 9, 0x01, 0x07],
        [0x00, 0x07, 0, 0x00, 0x80],
        [0x00, 0x0A, 0, 0xF0, 0x5A],
        [0x00, 0x0C, 1, 0x00, 0x65],
        [0x00, 0x0D, 2, 0xFF, 0x40],
        [0x00, 0x10, 1, 0xFF, 0x33],
        [0x00, 0x11, 7, 0x12, 0x34],
    ];
    assert_eq!(mended(&typed), (due.clone(), list.concat()));
    for flags in [0, 1] {
        let (map, altered) = mended(&with_flags(&typed, flags));
        assert_eq!((map, altered), (with_flags(&due, flags), list.concat()));
    }
    assert_eq!((map_test(&typed), map_test(&due)), (3, 0));
}

#[test]
fn a_good_map_is_returned_as_it_was() {
    let mut random = Random::new(1);
    for _ in 0..1_500 {
        let count = count(&mut random);
        let map = good_map(&mut random, count);
        for room in [0, 1, 5, ROOMY] {
            assert_eq!(mended_in(&map, room), Ok((map.clone(), vec![])));
        }
    }
}

/// "Places that document 01 fixes get what it asks", whatever stood there: every
/// place by every kind, with masks and defaults of several sorts.
#[test]
fn every_place_by_every_kind() {
    for address in 0..18 {
        for kind in 0..=255 {
            for (mask, default) in [(0x00, 0x00), (0x00, 0x56), (0xFF, 0x04), (0x5A, 0xFF)] {
                let was = [kind, mask, default];
                let due = match address {
                    0x0000 | 0x0001 | 0x000F => [4, 0, 0],
                    0x0003 | 0x0004 | 0x0005 | 0x0006 | 0x000B => [1, 0, default],
                    0x0007 | 0x000E => [0, 0, 0],
                    0x000A => [2, 0xFF, default],
                    0x000C => [1, 0, 0x56],
                    0x000D => [1, 0, 0x04],
                    _ => match kind {
                        1 => [1, 0, default],
                        2 | 3 => was,
                        _ => [0, 0, 0],
                    },
                };
                assert_one_entry(address, was, due);
            }
        }
    }
}

/// A good map with this one entry, in each version: the entry becomes what is due,
/// and is listed if that is another.
fn assert_one_entry(address: usize, was: [u8; 3], due: [u8; 3]) {
    let mut entries = entries_of(&simple_map(18));
    entries[address] = was;
    let typed = in_each_version(&map_of(&entries));
    entries[address] = due;
    let list = if was == due { vec![] } else { vec![0, address as u8, was[0], was[1], was[2]] };
    for (map, right) in typed.iter().zip(in_each_version(&map_of(&entries))) {
        assert_eq!(mended(map), (right, list.clone()), "{was:02X?} at {address:#06X}");
    }
}

/// What the request asks of every outcome: the map test accepts it, the list names
/// the altered entries by rising address with what they were, what need not be
/// altered isn't, and there is nothing left to mend.
fn assert_mended(typed: &[u8]) -> usize {
    let (map, list) = mended(typed);
    assert_eq!(map_test(&map), 0, "{typed:02X?} became {map:02X?}");
    assert_eq!(mended_in(&map, 0), Ok((map.clone(), vec![])), "mended twice");
    let (old, new) = (entries_of(typed), entries_of(&map));
    let altered: Vec<usize> = (0..old.len()).filter(|&i| old[i] != new[i]).collect();
    let listed: Vec<usize> =
        list.chunks(5).map(|l| usize::from(u16::from_be_bytes([l[0], l[1]]))).collect();
    assert_eq!(listed, altered);
    let mut back = map.clone();
    for line in list.chunks(5) {
        let address = usize::from(u16::from_be_bytes([line[0], line[1]]));
        set_entry(&mut back, address, [line[2], line[3], line[4]]);
    }
    assert_eq!(back, typed, "the list gives the old map back");
    for (address, (&old, &new)) in old.iter().zip(&new).enumerate() {
        assert_kept(address, old, new);
    }
    // An entry that could stand in the mended map is not altered.
    for &address in &altered {
        let mut other = map.clone();
        set_entry(&mut other, address, old[address]);
        assert_eq!(map_test(&other), 3, "{address:#06X} was good in {typed:02X?}");
    }
    altered.len()
}

/// What an entry keeps, altered or not.
fn assert_kept(address: usize, old: [u8; 3], new: [u8; 3]) {
    let keeps_default = match address {
        0x0003..=0x0006 | 0x000A | 0x000B => true,
        0x0000..=0x0001 | 0x0007 | 0x000C..=0x000F => false,
        _ => (1..=3).contains(&old[0]),
    };
    assert!(!keeps_default || old[2] == new[2], "{address:#06X}: {old:02X?} to {new:02X?}");
    if address >= 16 && (2..=3).contains(&old[0]) {
        assert_eq!(old, new);
    }
}

#[test]
fn slips_in_good_maps_are_mended() {
    let mut random = Random::new(2);
    let mut altered = 0;
    for _ in 0..4_000 {
        altered += assert_mended(&slipped_map(&mut random));
    }
    assert!(altered > 8_000, "only {altered} entries were altered");
}

#[test]
fn any_bytes_behind_a_good_head_are_mended() {
    let mut random = Random::new(3);
    let mut altered = 0;
    for _ in 0..1_000 {
        let map = scrambled_map(&mut random);
        match mended_in(&map, room_for(&map)) {
            Ok(_) => altered += assert_mended(&map),
            Err(number) => assert_eq!(number, 18),
        }
    }
    assert!(altered > 20_000, "only {altered} entries were altered");
}

/// Every entry of the largest map is altered: 40,960 bytes.
#[test]
fn the_longest_list() {
    let mut entries = vec![[0xFF, 0xFF, 0xFF]; 8_192];
    entries[0x0004] = [0xFF, 0xFF, 0x01];
    for map in in_each_version(&map_of(&entries)) {
        let (_, list) = mended(&map);
        assert_eq!(list.len(), 40_960);
        assert_eq!(list[40_955..], [0x1F, 0xFF, 0xFF, 0xFF, 0xFF]);
        assert_eq!(mended_in(&map, 40_960).map(|(_, list)| list.len()), Ok(40_960));
        assert_eq!(mended_in(&map, 40_959), Err(6));
    }
}

#[test]
fn the_room_that_is_needed_is_exact() {
    let mut random = Random::new(4);
    for _ in 0..1_000 {
        let map = slipped_map(&mut random);
        let due = needed(&map);
        for room in [due, due + 1, due + 4, due + 50] {
            assert_eq!(mended_in(&map, room).map(|(_, list)| list.len()), Ok(due));
        }
        for less in (1..=due.min(7)).chain((due > 0).then_some(due)) {
            assert_eq!(mended_in(&map, due - less), Err(6), "{due} less {less}");
        }
    }
}

/// 18 goes by the two default bytes, whatever else stands there.
#[test]
fn all_product_numbers_but_two_are_kept() {
    let mut map = simple_map(16);
    for product in 0..=0xFFFF_u16 {
        let [high, low] = product.to_be_bytes();
        let kind = (product % 7) as u8;
        set_entry(&mut map, 0x0004, [kind, high, low]);
        set_entry(&mut map, 0x0005, [6 - kind, low, high]);
        let defaults = mended_in(&map, 10).map(|(map, _)| {
            let entries = entries_of(&map);
            (entries[4], entries[5])
        });
        let due = match product {
            0x0000 | 0xFFFF => Err(18),
            _ => Ok(([1, 0, low], [1, 0, high])),
        };
        assert_eq!(defaults, due, "{product:#06X}");
    }
}

/// "18, after 2" and "6, after 18": every set of reasons. 3 is never given.
#[test]
fn the_numbers_have_their_order() {
    for broken in 0..8 {
        let breaks = |i: u8| broken >> i & 1 == 1;
        for version in [1, 2] {
            let mut map = simple_map(17);
            set_entry(&mut map, 0x0010, [4, 1, 1]);
            if breaks(1) {
                set_entry(&mut map, 0x0004, [2, 0x0F, 0xFF]);
                set_entry(&mut map, 0x0005, [0, 0x00, 0xFF]);
            }
            if version == 2 {
                map = with_flags(&map, 1);
            }
            if breaks(0) {
                map[2] = 3;
            }
            let reasons = [(breaks(0), 2), (breaks(1), 18), (breaks(2), 6)];
            let number = reasons.iter().find(|(applies, _)| *applies).map(|(_, number)| *number);
            let room = if breaks(2) { 4 } else { 15 };
            assert_eq!(mended_in(&map, room).err(), number, "{broken:03b}");
        }
    }
}

/// A head that doesn't stand isn't mended, and the head is never altered.
#[test]
fn heads_are_not_mended() {
    let mut random = Random::new(5);
    for damage in Damage::ALL {
        for _ in 0..100 {
            let count = count(&mut random).min(600);
            let mut map = good_map(&mut random, count);
            damage.apply(&mut random, &mut map);
            let room = random.pick(&[0, 40, ROOMY]);
            let found = mended_in(&map, room);
            let due = match damage {
                Damage::ProductZero | Damage::ProductOnes => Some(18),
                _ if damage.number() == 2 => Some(2),
                _ if room == 0 => Some(6),
                _ => None,
            };
            assert_eq!(found.as_ref().err().copied(), due, "{damage:?} of {map:02X?}");
            if let Ok((mended, _)) = found {
                assert_eq!(mended[..entry_at(&map, 0)], map[..entry_at(&map, 0)]);
            }
        }
    }
}

#[test]
fn every_flag_byte_has_its_number() {
    for flags in 0..=255 {
        let map = with_flags(&simple_map(17), flags);
        let due = if flags <= 1 { Ok((map.clone(), vec![])) } else { Err(2) };
        assert_eq!(mended_in(&map, ROOMY), due, "{flags:#04X}");
    }
}

/// Every byte of a map takes every value, and every length is cut or drawn out: a
/// map that the map test accepts stays, one that it refuses with 2 is refused, and
/// all others are mended or have a bad product number.
#[test]
fn the_call_looks_at_every_byte_and_length() {
    for map in in_each_version(&simple_map(17)) {
        maps_near(&map).for_each(|near| compare_with_map_test(&near));
    }
}

fn compare_with_map_test(map: &[u8]) {
    match (map_test(map), mended_in(map, 200)) {
        (2, found) => assert_eq!(found, Err(2)),
        (0, found) => assert_eq!(found, Ok((map.to_vec(), vec![]))),
        (_, found) => {
            let (_, list) = found.expect("the product number can't be spoilt by one byte");
            assert_eq!(list.len(), 5, "one byte was changed");
            assert_eq!(mended_in(map, 4), Err(6));
        }
    }
}

/// The library on maps with nothing, little or everything wrong.
#[test]
fn the_library_agrees_on_good_and_typed_maps() {
    let test = "mend::the_library_agrees_on_good_and_typed_maps";
    assert_agreed(test, MAPS, assert_reached, |seed| {
        let Mending { map, room } = any_mending(&mut Random::new(seed), needed);
        let agreed = try_mend(&map, &vec![0xEE; room]);
        agreed.map_err(|told| (told, format!("room {room}, map {map:02X?}\n")))
    });
}

/// That the generated maps reach every number.
#[test]
fn generated_maps_reach_every_number() {
    let mut given = [0; 20];
    for seed in 0..MAPS / 10 {
        let Mending { map, room } = any_mending(&mut Random::new(seed), needed);
        given[usize::from(mended_in(&map, room).err().unwrap_or(0))] += 1;
    }
    assert_reached(&given);
}

fn assert_reached(given: &[u64]) {
    assert_numbers("mending", given, &[0, 2, 6, 18], 200);
}
