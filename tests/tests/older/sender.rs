//! The sender to older chips: its numbers at every boundary, its samples, and that
//! reading them back gives what was ordered.

use couplingnut_tests::both::{send_older, try_send_older};
use couplingnut_tests::by_hand::frame;
use couplingnut_tests::chip::{sent_older, Chip};
use couplingnut_tests::generate::older::maps::good_older_map;
use couplingnut_tests::generate::older::orders::{older_addresses, older_at_rest};
use couplingnut_tests::generate::older::{another_top, any_older, TOPS};
use couplingnut_tests::generate::random::Random;
use couplingnut_tests::made::{assert_agreed, made_in};
use couplingnut_tests::tally::assert_numbers;
use second::older::Older;
use second::sender::Order;
use second::settings::Settings;

use super::{bytes, instruction, STREAMING};

const ORDERS: u64 = 100_000;
const GOOD: Order = Order { direction: 0, settings: 0, start: 0x0010, count: 1, data: &[0x3C] };
const TOP: u64 = 0x002C;

/// Numbers of which a narrower type would keep something harmless.
const WIDE: [u64; 7] = [1 << 8, 1 << 16, (1 << 16) + 1, 1 << 32, (1 << 32) + 1, 1 << 63, u64::MAX];

fn number(top: u64, order: &Order, room: usize) -> u8 {
    made_in(&vec![0xEE; room], |out| send_older(top, order, out)).err().unwrap_or(0)
}

/// 12 first, then 7, 8, 9 and 11; 10 is never given.
#[test]
fn the_numbers_have_their_order() {
    for broken in 0u8..32 {
        let breaks = |i: u8| broken >> i & 1 == 1;
        let order = Order {
            direction: 0,
            settings: if breaks(1) { 2 } else { 0 },
            start: if breaks(3) { 0x0000 } else { 0x0002 },
            count: 2,
            data: if breaks(2) { &[1] } else { &[1, 2] },
        };
        let top = if breaks(0) { 0x000E } else { TOP };
        let room = if breaks(4) { 66 } else { 67 };
        let reasons = (0..5).zip([12, 7, 8, 9, 11]);
        let first = reasons.into_iter().find(|(i, _)| breaks(*i)).map_or(0, |(_, number)| number);
        assert_eq!(number(top, &order, room), first, "{broken:05b}");
    }
}

/// The top has the bounds that it has, whatever the order is.
#[test]
fn the_top_has_its_bounds() {
    let worst = Order { direction: 9, settings: 9, start: u64::MAX, count: 0, data: &[] };
    let narrow = [13, 16, 32, 63].map(|bit| (1 << bit) + 0x0020);
    for top in (0..0x0030).chain(0x1FF0..0x2010).chain(narrow).chain(WIDE) {
        let good = (0x000F..=0x1FFF).contains(&top);
        let expected = if good { [7, 0] } else { [12, 12] };
        assert_eq!(number(top, &worst, 0), expected[0], "{top:#X}");
        let order = Order { start: 0x000F, ..GOOD };
        assert_eq!(number(top, &order, 51), expected[1], "{top:#X}");
    }
}

#[test]
fn direction_and_settings_are_0_or_1() {
    for wide in (2..=255).chain(WIDE) {
        assert_eq!(number(TOP, &Order { direction: wide, ..GOOD }, 99), 7);
        assert_eq!(number(TOP, &Order { settings: wide, ..GOOD }, 99), 7, "settings {wide}");
    }
    for settings in [0, 1] {
        assert_eq!(number(TOP, &Order { settings, ..GOOD }, 51), 0);
        let read = Order { direction: 1, settings, data: &[], ..GOOD };
        assert_eq!(number(TOP, &read, 51), 0);
    }
}

#[test]
fn count_and_data_have_to_agree() {
    let bytes = [0x5A; 1_001];
    let top = 0x1FFF;
    for count in [0, 1, 2, 3, 4, 5, 999, 1_000, 1_001, 1_002].into_iter().chain(WIDE) {
        for length in [0, 1, 2, 3, 4, 5, 999, 1_000, 1_001] {
            let write = Order { settings: 1, start: 0x0100, count, data: &bytes[..length], ..GOOD };
            let stands = (1..=1_000).contains(&count);
            let expected = if stands && count == length as u64 { 0 } else { 8 };
            assert_eq!(number(top, &write, 16_035), expected, "{length} bytes for {count}");
            let expected = if stands && length == 0 { 0 } else { 8 };
            assert_eq!(number(top, &Order { direction: 1, ..write }, 16_035), expected);
        }
    }
}

/// "A run that leaves 0 to the top": any of its addresses, of a read too. There is no
/// wrapping.
#[test]
fn a_run_stays_within_0_to_the_top() {
    let bytes = [0x5A; 1_000];
    for top in TOPS.into_iter().chain([0x0010, 0x03E7, 0x03E8, 0x1234]) {
        let starts = [0, 1, 2, 3, 998, 999, 1_000, top / 2, top - 3, top - 2, top - 1, top];
        let beyond = [top + 1, top + 2, 0x1FFF, 0x2000, 0x7FFF, 0x8000, 0xFFFF];
        for start in starts.into_iter().chain(beyond).chain(WIDE) {
            for count in [1, 2, 3, 4, 5, 15, 16, 17, 999, 1_000] {
                for settings in [0, 1] {
                    let data = &bytes[..count as usize];
                    let write = Order { direction: 0, settings, start, count, data };
                    let stays = older_addresses(&write).iter().all(|&address| address <= top);
                    let expected = if stays { 0 } else { 9 };
                    assert_eq!(number(top, &write, 16_035), expected, "{write:X?}, top {top:#X}");
                    let read = Order { direction: 1, data: &[], ..write };
                    assert_eq!(number(top, &read, 16_035), expected, "{read:X?}");
                }
            }
        }
    }
}

/// 35 + 16k samples, whether counted or streaming.
#[test]
fn the_room_that_is_needed_is_exact() {
    let bytes = [0x5A; 1_000];
    for count in [1, 2, 3, 4, 5, 100, 999, 1_000] {
        let due = 35 + 16 * count;
        for settings in [0, 1] {
            let data = &bytes[..count];
            let order = Order { settings, start: 0x1000, count: count as u64, data, ..GOOD };
            for room in [0, 1, due - 2, due - 1, due, due + 1, due + 50] {
                let expected = if room < due { 11 } else { 0 };
                assert_eq!(number(0x1FFF, &order, room), expected, "{room} of {due}");
            }
            let mut outgoing = vec![0xEE; due + 50];
            assert_eq!(send_older(0x1FFF, &order, &mut outgoing).count, due);
            assert!(outgoing[due..].iter().all(|&byte| byte == 0xEE), "the rest is unchanged");
        }
    }
}

/// One, two, three bytes are counted, and from four on they stream; by hand.
#[test]
fn the_length_field_by_hand() {
    for (count, word) in [
        (1, "0 00 0000000100000"),
        (2, "0 01 0000000100000"),
        (3, "0 10 0000000100000"),
        (4, "0 11 0000000100000"),
        (5, "0 11 0000000100000"),
    ] {
        let data = &[0x81, 0x42, 0x24, 0x18, 0xFF][..count];
        let bits = ["10000001", "01000010", "00100100", "00011000", "11111111"][..count].concat();
        let write = Order { start: 0x0020, count: count as u64, data, ..GOOD };
        assert_eq!(sent_older(TOP, &write), frame(&format!("{word} {bits}")));
        let read = Order { direction: 1, data: &[], ..write };
        let zeros = "0".repeat(8 * count);
        let word = word.replacen('0', "1", 1);
        assert_eq!(sent_older(TOP, &read), frame(&format!("{word} {zeros}")));
    }
}

/// The samples of any order, put together from its instruction and bytes. The top
/// does not show in them.
#[test]
fn samples_are_the_bits_one_by_one() {
    let mut random = Random::new(1);
    for _ in 0..2_000 {
        let (top, direction, settings, start, data) = any_good(&mut random);
        let count = data.len() as u64;
        let (read, first) = (direction == 1, settings == 1);
        let due = if read { vec![0; data.len()] } else { data.clone() };
        let data = if read { &[][..] } else { &data };
        let order = Order { direction, settings, start, count, data };
        let length = if count <= 3 { count as u16 - 1 } else { STREAMING };
        let word = instruction(read, length, start as u16, first);
        let samples = [&[0x00][..], &word, &bytes(&due, first), &[0x00, 0x01]].concat();
        assert_eq!(samples.len() as u64, 35 + 16 * count);
        assert_eq!(sent_older(top, &order), samples);
        assert_eq!(sent_older(0x1FFF, &order), samples);
    }
}

/// Top, direction, settings number, start and as many bytes as the count says.
fn any_good(random: &mut Random) -> (u64, u64, u64, u64, Vec<u8>) {
    let top = any_older(random).top;
    let most = random.pick(&[3, 6, 1_000]).min(top as usize + 1);
    let count = random.between(1, most);
    let lowest = random.below(top as usize + 2 - count);
    let settings = random.below(2) as u64;
    let start = if settings == 1 { lowest } else { lowest + count - 1 };
    (top, random.below(2) as u64, settings, start as u64, random.bytes(count))
}

/// Demand 2: by a session at rest with the same bit order, a record for each byte, in
/// order, and the session is at rest again.
#[test]
fn reading_the_samples_back_gives_the_order() {
    let mut random = Random::new(2);
    for _ in 0..3_000 {
        let (top, direction, settings, start, data) = any_good(&mut random);
        let count = data.len() as u64;
        let written = if direction == 1 { &[][..] } else { &data };
        let order = Order { direction, settings, start, count, data: written };
        let mut chip = older_at_rest(&mut random, settings);
        let older = Older { top, ..chip.older.expect("an older chip") };
        let opened = Chip::opened_by(Some(older), &good_older_map(&mut random, older));
        chip = Chip { session: chip.session, ..opened };
        let before = chip.clone();
        let lines = chip.read(&sent_older(top, &order));
        let found: Vec<&str> =
            lines.iter().map(|line| &line[..if direction == 1 { 6 } else { 9 }]).collect();
        let due = older_addresses(&order).into_iter().zip(&data).map(|(a, v)| match direction {
            1 => format!("R {a:04X}"),
            _ => format!("W {a:04X} {v:02X}"),
        });
        assert_eq!(found, due.collect::<Vec<_>>());
        assert_eq!(chip.session.phase, before.session.phase);
        if direction == 1 {
            assert_eq!((chip.active, chip.buffer), (before.active, before.buffer));
        } else if older_addresses(&order).iter().all(|&address| address != 0 && address != 4) {
            assert_eq!(chip.session.settings, before.session.settings);
        } else if older_addresses(&order).contains(&0) {
            let first = chip.session.settings.has(Settings::LSB_FIRST);
            let v = data[older_addresses(&order).iter().position(|&a| a == 0).expect("it has")];
            assert_eq!(first, v & 0x40 != 0);
        }
    }
}

/// An order with nothing, one thing or several things wrong, and its room.
fn any_order<'a>(random: &mut Random, bytes: &'a [u8]) -> (u64, Order<'a>, usize) {
    let (mut top, mut direction, mut settings, mut start, data) = any_good(random);
    let mut count = data.len() as u64;
    let mut length = if direction == 1 { 0 } else { data.len() };
    let mut room = 35 + 16 * data.len() + random.pick(&[0, 0, 0, 1, 7]);
    let (right, any) = (top, random.number());
    for _ in 0..random.pick(&[0, 0, 1, 1, 1, 2, 3]) {
        match random.below(7) {
            0 => direction = random.pick(&WIDE).max(2),
            1 => settings = random.between(2, 9) as u64 + random.pick(&[0, 0, 1 << 32]),
            2 => start = random.pick(&[right, right + 1, right + 2, 0, 1, 2, any]),
            3 => count = random.pick(&[0, count + 1, 1_001, (1 << 32) + count]),
            4 => length = random.pick(&[0, length + 1, length.saturating_sub(1)]).min(1_001),
            5 => top = another_top(random, right),
            _ => room = random.pick(&[room.saturating_sub(1), room / 2, 0]),
        }
    }
    (top, Order { direction, settings, start, count, data: &bytes[..length] }, room)
}

/// The library on orders with nothing, one thing or several things wrong.
#[test]
fn the_library_agrees_on_good_and_damaged_orders() {
    let test = "older::sender::the_library_agrees_on_good_and_damaged_orders";
    assert_agreed(test, ORDERS, assert_reached, |seed| {
        let mut random = Random::new(seed);
        let bytes = random.bytes(1_001);
        let (top, order, room) = any_order(&mut random, &bytes);
        let agreed = try_send_older(top, &order, &vec![0xEE; room]);
        agreed.map_err(|told| (told, format!("top {top:#X}, {order:X?} in {room} bytes\n")))
    });
}

/// That the generated orders reach every number.
#[test]
fn generated_orders_reach_every_number() {
    let mut given = [0; 20];
    for seed in 0..ORDERS / 10 {
        let mut random = Random::new(seed);
        let bytes = random.bytes(1_001);
        let (top, order, room) = any_order(&mut random, &bytes);
        given[usize::from(number(top, &order, room))] += 1;
    }
    assert_reached(&given);
}

fn assert_reached(given: &[u64]) {
    assert_numbers("the older sender", given, &[0, 7, 8, 9, 11, 12], 200);
}
