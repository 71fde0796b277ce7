//! The fewest frames for a list of registers, by both sides: Ask 13 of document 02.

use std::collections::BTreeMap;

use couplingnut_tests::both::{fewest_frames, send_setup, try_fewest_frames};
use couplingnut_tests::chip::{settings_of, Chip};
use couplingnut_tests::generate::frames::{any_frames, good_addresses, needed, Frames, CONTROLS};
use couplingnut_tests::generate::maps::good_map;
use couplingnut_tests::generate::random::Random;
use couplingnut_tests::generate::setups::{list_of, orders_of, Listed};
use couplingnut_tests::made::{self, assert_agreed, held};
use couplingnut_tests::tally::assert_numbers;

const LISTS: u64 = 60_000;

/// More than any list takes: 1,000 orders of one byte each.
const ROOMY: usize = 9_000 + 7;

const DESCENDING: u64 = 0;
const ASCENDING: u64 = 1;

/// The bytes that the call makes in so much room, or the number that refuses it.
fn made_in(ascending: u64, addresses: &[u16], bytes: &[u8], room: usize) -> Result<Vec<u8>, u8> {
    made::made_in(&held(room), |out| fewest_frames(ascending, addresses, bytes, out))
}

/// The number of a list with as many bytes as addresses, with room and without.
fn number(addresses: &[u16]) -> u8 {
    let bytes = vec![0xA5; addresses.len()];
    let numbers = [DESCENDING, ASCENDING].map(|ascending| {
        let roomy = made_in(ascending, addresses, &bytes, ROOMY).err().unwrap_or(0);
        let tight = made_in(ascending, addresses, &bytes, 0).err();
        assert_eq!(tight, Some(if roomy == 0 { 11 } else { roomy }), "{addresses:X?}");
        roomy
    });
    assert_eq!(numbers[0], numbers[1]);
    numbers[0]
}

#[test]
fn three_stretches_by_hand() {
    let addresses = [0x0002, 0x0003, 0x0004, 0x0010, 0x7FFE, 0x7FFF];
    let bytes = [0x21, 0x31, 0x41, 0x01, 0xE1, 0xF1];
    let up = [
        &[0, 9, 1, 0, 0x00, 0x02, 0, 3, 0x21, 0x31, 0x41][..],
        &[0, 7, 1, 0, 0x00, 0x10, 0, 1, 0x01],
        &[0, 8, 1, 0, 0x7F, 0xFE, 0, 2, 0xE1, 0xF1],
    ];
    let down = [
        &[0, 9, 1, 0, 0x00, 0x04, 0, 3, 0x41, 0x31, 0x21][..],
        &[0, 7, 1, 0, 0x00, 0x10, 0, 1, 0x01],
        &[0, 8, 1, 0, 0x7F, 0xFF, 0, 2, 0xF1, 0xE1],
    ];
    assert_eq!(made_in(DESCENDING, &addresses, &bytes, ROOMY), Ok(down.concat()));
    for ascending in [1, 2, 3, 256, 1 << 16, 1 << 32, 1 << 63, u64::MAX] {
        assert_eq!(made_in(ascending, &addresses, &bytes, ROOMY), Ok(up.concat()));
    }
}

/// The addresses that an order writes, one after the other.
fn addresses_of(ascending: u64, order: &Listed) -> Vec<u16> {
    let step = if ascending != 0 { 1 } else { 0x7FFF };
    (0..u32::from(order.count))
        .map(|i| ((u32::from(order.start) + i * step) & 0x7FFF) as u16)
        .collect()
}

/// What the request asks of every outcome but its smallness: streaming write orders
/// by rising start that write each listed register once with its byte and no other.
fn orders_made(ascending: u64, addresses: &[u16], bytes: &[u8]) -> Vec<Listed> {
    let list = made_in(ascending, addresses, bytes, ROOMY).expect("a good list");
    let orders = orders_of(&list);
    assert_eq!(list_of(&orders), list, "the form is Ask 6's");
    assert!(orders.is_sorted_by(|one, next| one.start < next.start), "{orders:X?}");
    let mut written = BTreeMap::new();
    for order in &orders {
        assert_eq!((order.direction, usize::from(order.count)), (0, order.data.len()));
        for (address, &byte) in addresses_of(ascending, order).into_iter().zip(&order.data) {
            assert_eq!(written.insert(address, byte), None, "{address:#06X} is written twice");
        }
    }
    let listed = addresses.iter().copied().zip(bytes.iter().copied()).collect();
    assert_eq!(written, listed, "{orders:X?}");
    orders
}

/// Every order that writes listed registers alone and none of them twice, as a set
/// of places in the list. All starts and counts are tried, wrapping ones too.
fn possible_orders(ascending: u64, addresses: &[u16]) -> Vec<u32> {
    let mut possible = Vec::new();
    for start in 0..0x8000 {
        for count in 1..=addresses.len() as u16 + 1 {
            let order = Listed { direction: 0, start, count, data: vec![] };
            let mut places = 0;
            for address in addresses_of(ascending, &order) {
                match addresses.iter().position(|&listed| listed == address) {
                    Some(place) if places >> place & 1 == 0 => places |= 1 << place,
                    _ => places = u32::MAX,
                }
                if places == u32::MAX {
                    break;
                }
            }
            if places == u32::MAX {
                // A longer run from here writes the same register too.
                break;
            }
            possible.push(places);
        }
    }
    possible
}

/// Whether some set of exactly so many of these orders writes each of these places
/// once: every choice is tried.
fn some_set(possible: &[u32], many: usize, places: u32) -> bool {
    match many {
        0 => places == 0,
        _ => (0..possible.len()).any(|i| {
            let order = possible[i];
            order & !places == 0 && some_set(&possible[i + 1..], many - 1, places & !order)
        }),
    }
}

/// Every list of registers out of a few windows, small ones, against every set of
/// orders: as many as were made do, and no fewer.
#[test]
fn no_set_of_orders_is_smaller() {
    let windows = [
        [0x0002, 0x0003, 0x0004, 0x0005, 0x0006, 0x0007],
        [0x000B, 0x000C, 0x000D, 0x000E, 0x0010, 0x0011],
        [0x7FFA, 0x7FFB, 0x7FFC, 0x7FFD, 0x7FFE, 0x7FFF],
        [0x0002, 0x0003, 0x3FFF, 0x4000, 0x7FFE, 0x7FFF],
    ];
    for window in windows {
        for chosen in 1..64 {
            let chosen = (0..6).filter(|i| chosen >> i & 1 == 1);
            assert_smallest(&chosen.map(|i| window[i]).collect::<Vec<u16>>());
        }
    }
}

fn assert_smallest(addresses: &[u16]) {
    let bytes: Vec<u8> = (1..=addresses.len() as u8).collect();
    for ascending in [DESCENDING, ASCENDING] {
        let made = orders_made(ascending, addresses, &bytes).len();
        let possible = possible_orders(ascending, addresses);
        let all = (1 << addresses.len()) - 1;
        assert!(some_set(&possible, made, all), "{addresses:X?}");
        for fewer in 0..made {
            assert!(!some_set(&possible, fewer, all), "{fewer} orders will do for {addresses:X?}");
        }
    }
}

/// A thousand neighbours are one order, a thousand apart a thousand; and what is
/// between. No stretch is cut, as an order may have a thousand bytes.
#[test]
fn a_thousand_addresses_at_once() {
    let mut random = Random::new(1);
    let bytes = random.bytes(1_000);
    for start in [0x0010, 0x0100, 0x7FFF - 999] {
        let neighbours: Vec<u16> = (start..start + 1_000).collect();
        for ascending in [DESCENDING, ASCENDING] {
            assert_eq!(orders_made(ascending, &neighbours, &bytes).len(), 1);
            assert_eq!(made_in(ascending, &neighbours, &bytes, 1_008).map(|l| l.len()), Ok(1_008));
            assert_eq!(made_in(ascending, &neighbours, &bytes, 1_007), Err(11));
        }
    }
    for step in [2, 3, 32] {
        let apart: Vec<u16> = (0..1_000).map(|i| 0x0010 + step * i).collect();
        for ascending in [DESCENDING, ASCENDING] {
            assert_eq!(orders_made(ascending, &apart, &bytes).len(), 1_000);
            assert_eq!(made_in(ascending, &apart, &bytes, 9_000).map(|l| l.len()), Ok(9_000));
            assert_eq!(made_in(ascending, &apart, &bytes, 8_999), Err(11));
        }
    }
    // The first that a list may have and all after it, up to a thousand.
    let first: Vec<u16> = (0..).filter(|a| !CONTROLS.contains(a)).take(1_000).collect();
    for ascending in [DESCENDING, ASCENDING] {
        assert_eq!(orders_made(ascending, &first, &bytes).len(), 2);
    }
}

/// As many orders as there are listed registers without a listed one below.
#[test]
fn an_order_for_each_stretch() {
    let mut random = Random::new(2);
    for _ in 0..2_000 {
        let most = random.pick(&[3, 20, 20, 20, 1_000]);
        let addresses = good_addresses(&mut random, most);
        let bytes = random.bytes(addresses.len());
        let starts = addresses.iter().filter(|&&a| !addresses.contains(&(a - 1))).count();
        for ascending in [DESCENDING, ASCENDING] {
            let orders = orders_made(ascending, &addresses, &bytes);
            assert_eq!(orders.len(), starts, "{addresses:X?}");
        }
    }
}

/// Each single address: the controls and all above 0x7FFF are refused.
#[test]
fn every_address_has_its_number() {
    for address in 0..=0xFFFF {
        let listed = address <= 0x7FFF && !CONTROLS.contains(&address);
        assert_eq!(number(&[address]), if listed { 0 } else { 19 }, "{address:#06X}");
    }
}

#[test]
fn a_control_register_or_a_high_address_anywhere_is_refused() {
    for (list, expected) in [
        (&[0x0000, 0x0002][..], 19),
        (&[0x0001, 0x0002], 19),
        (&[0x0000, 0x0001, 0x000F], 19),
        (&[0x000E, 0x000F], 19),
        (&[0x000E, 0x000F, 0x0010], 19),
        (&[0x000E, 0x0010], 0),
        (&[0x7FFE, 0x7FFF], 0),
        (&[0x7FFF, 0x8000], 19),
        (&[0x0010, 0x8010, 0x8011], 19),
        (&[0x0010, 0xFFFF], 19),
    ] {
        assert_eq!(number(list), expected, "{list:X?}");
    }
}

#[test]
fn the_addresses_have_to_rise() {
    for (list, expected) in [
        (&[0x0010, 0x0010][..], 19),
        (&[0x0011, 0x0010], 19),
        (&[0x0010, 0x0012, 0x0011], 19),
        (&[0x0010, 0x0011, 0x0010], 19),
        (&[0x0100, 0x0011], 19),
        (&[0x0010, 0x0011, 0x0011, 0x0012], 19),
        (&[0x0010, 0x0011, 0x0012], 0),
    ] {
        assert_eq!(number(list), expected, "{list:X?}");
    }
    // Two places exchanged, or one like its neighbour, anywhere in a long list.
    let rising: Vec<u16> = (0..300).map(|i| 0x0100 + 3 * i).collect();
    assert_eq!(number(&rising), 0);
    for at in 1..rising.len() {
        let mut list = rising.clone();
        list.swap(at - 1, at);
        assert_eq!(number(&list), 19, "exchanged at {at}");
        list[at] = list[at - 1];
        assert_eq!(number(&list), 19, "twice at {at}");
    }
}

#[test]
fn an_empty_or_long_list_is_refused() {
    for (many, expected) in
        [(0, 19), (1, 0), (999, 0), (1_000, 0), (1_001, 19), (1_002, 19), (2_000, 19)]
    {
        for step in [1, 2] {
            let list: Vec<u16> = (0..many).map(|i| 0x0010 + step * i).collect();
            assert_eq!(number(&list), expected, "{many} addresses");
        }
    }
    // A number of which a narrower type would keep something harmless.
    let list: Vec<u16> = (0x0010..0x7FFF).collect();
    assert_eq!(number(&list), 19);
    assert_eq!(made_in(ASCENDING, &[], &[], 0), Err(19));
}

#[test]
fn as_many_bytes_as_addresses() {
    let addresses: Vec<u16> = (0x0010..0x0010 + 300).collect();
    for many in [1, 2, 3, 44, 300] {
        for length in (0..=310).chain([many + 256, many + 65_536]) {
            let expected = if length == many { Ok(8 + many) } else { Err(19) };
            for (ascending, room) in [(DESCENDING, ROOMY), (ASCENDING, 8 + many)] {
                let made = made_in(ascending, &addresses[..many], &vec![0x5A; length], room);
                assert_eq!(made.map(|list| list.len()), expected, "{length} for {many}");
            }
            if length != many {
                let made = made_in(ASCENDING, &addresses[..many], &vec![0x5A; length], 0);
                assert_eq!(made, Err(19), "before 11");
            }
        }
    }
    assert_eq!(made_in(ASCENDING, &[], &[1], ROOMY), Err(19));
}

#[test]
fn the_room_that_is_needed_is_exact() {
    let mut random = Random::new(3);
    for _ in 0..1_500 {
        let most = random.pick(&[3, 20, 20, 1_000]);
        let addresses = good_addresses(&mut random, most);
        let bytes = random.bytes(addresses.len());
        let due = needed(&addresses);
        for ascending in [DESCENDING, ASCENDING] {
            for room in [due, due + 1, due + 50] {
                let made = made_in(ascending, &addresses, &bytes, room);
                assert_eq!(made.map(|list| list.len()), Ok(due));
            }
            for room in [0, 8, due / 2, due - 2, due - 1] {
                assert_eq!(made_in(ascending, &addresses, &bytes, room), Err(11), "{room}: {due}");
            }
        }
    }
}

/// Sent by the setup call, up to 64 orders at a time, and read: each register is
/// written once with its byte, in either bit order.
#[test]
fn the_orders_are_sent_and_read_back() {
    let mut random = Random::new(4);
    for _ in 0..400 {
        let most = random.pick(&[1, 6, 30, 300, 1_000]);
        let addresses = good_addresses(&mut random, most);
        let bytes = random.bytes(addresses.len());
        let count = random.between(16, 80);
        let map = good_map(&mut random, count);
        for settings in 0..4 {
            let orders = orders_made(settings & 2, &addresses, &bytes);
            let mut chip = Chip::opened(&map);
            chip.session.settings = settings_of(settings);
            let mut lines = Vec::new();
            for part in orders.chunks(64) {
                let mut samples = vec![0; 65_536];
                let answer = send_setup(settings, &list_of(part), &mut samples);
                assert_eq!(answer.number, 0);
                lines.extend(chip.read(&samples[..answer.count]));
            }
            lines.sort();
            let listed = addresses.iter().zip(&bytes);
            let due: Vec<String> = listed.map(|(a, v)| format!("W {a:04X} {v:02X}")).collect();
            let found: Vec<&str> = lines.iter().map(|line| &line[..9]).collect();
            assert_eq!(found, due);
        }
    }
}

/// The library on lists with nothing, one thing or several things wrong.
#[test]
fn the_library_agrees_on_good_and_spoilt_lists() {
    let test = "frames::the_library_agrees_on_good_and_spoilt_lists";
    assert_agreed(test, LISTS, assert_reached, |seed| {
        let Frames { ascending, addresses, bytes, room } = any_frames(&mut Random::new(seed));
        let agreed = try_fewest_frames(ascending, &addresses, &bytes, &vec![0xEE; room]);
        let listing = || format!("{ascending}, {addresses:X?} with {bytes:02X?} in {room} bytes\n");
        agreed.map_err(|told| (told, listing()))
    });
}

/// That the generated lists reach every number.
#[test]
fn generated_lists_reach_every_number() {
    let mut given = [0; 20];
    for seed in 0..LISTS / 10 {
        let Frames { ascending, addresses, bytes, room } = any_frames(&mut Random::new(seed));
        let made = made_in(ascending, &addresses, &bytes, room);
        given[usize::from(made.err().unwrap_or(0))] += 1;
    }
    assert_reached(&given);
}

fn assert_reached(given: &[u64]) {
    assert_numbers("the fewest frames", given, &[0, 11, 19], 500);
}
