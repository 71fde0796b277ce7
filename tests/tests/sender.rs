//! The sender, by both sides: its numbers at every boundary, its
//! samples, and that reading them back gives what was ordered.

use couplingnut_tests::both::send;
use couplingnut_tests::chip::{sent, settings_of, Chip};
use couplingnut_tests::generate::maps::good_map;
use couplingnut_tests::generate::random::Random;
use couplingnut_tests::made::made_in;
use second::sender::Order;
use second::session::Session;
use second::Answer;

const GOOD: Order = Order { direction: 0, settings: 0, start: 0x0010, count: 1, data: &[0x3C] };

fn number(order: &Order, room: usize) -> u8 {
    made_in(&vec![0xEE; room], |out| send(order, out)).err().unwrap_or(0)
}

#[test]
fn the_lowest_number_that_applies_is_given() {
    for broken in 0u8..32 {
        let breaks = |number: u8| broken >> (number - 7) & 1 == 1;
        // Number 10 needs a single-instruction write through 0x0001.
        let start = if breaks(10) { 0x0001 } else { 0x0003 };
        let order = Order {
            direction: 0,
            settings: if breaks(7) { 12 } else { 4 },
            start: if breaks(9) { 0x8000 + start } else { start },
            count: 2,
            data: if breaks(8) { &[1] } else { &[1, 2] },
        };
        let room = if breaks(11) { 98 } else { 99 };
        let lowest = (7..=11).find(|&number| breaks(number) && !(number == 10 && breaks(9)));
        assert_eq!(number(&order, room), lowest.unwrap_or(0), "{order:?} in {room} bytes");
    }
}

#[test]
fn direction_and_settings_have_their_bounds() {
    for wide in [2, 3, 255, 256, 1 << 32, (1 << 32) + 1, u64::MAX] {
        assert_eq!(number(&Order { direction: wide, ..GOOD }, 99), 7);
    }
    for settings in 0..=7 {
        assert_eq!(number(&Order { settings, ..GOOD }, 99), 0);
    }
    for wide in [8, 9, 256, 1 << 32, (1 << 32) + 4, u64::MAX] {
        assert_eq!(number(&Order { settings: wide, ..GOOD }, 99), 7);
    }
}

#[test]
fn count_and_data_have_to_agree() {
    let data = [0x5A; 1_001];
    for (direction, count, length, expected) in [
        (0, 0, 0, 8),
        (0, 1, 1, 0),
        (0, 1, 0, 8),
        (0, 1, 2, 8),
        (0, 2, 1, 8),
        (0, 999, 1_000, 8),
        (0, 1_000, 1_000, 0),
        (0, 1_000, 999, 8),
        (0, 1_001, 1_001, 8),
        (0, (1 << 32) + 1, 1, 8),
        (0, 1 << 63, 0, 8),
        (1, 0, 0, 8),
        (1, 1, 0, 0),
        (1, 1, 1, 8),
        (1, 1_000, 0, 0),
        (1, 1_000, 1_000, 8),
        (1, 1_001, 0, 8),
        (1, u64::MAX, 0, 8),
    ] {
        for settings in [0, 4] {
            let data = &data[..length];
            let order = Order { direction, settings, start: 0x7000, count, data };
            assert_eq!(number(&order, 48_003), expected, "{direction} {count} {length}");
        }
    }
}

#[test]
fn the_start_has_fifteen_bits() {
    for (start, expected) in [
        (0x0000, 0),
        (0x7FFF, 0),
        (0x8000, 9),
        (0xFFFF, 9),
        (0x1_0000, 9),
        ((1 << 32) + 5, 9),
        (u64::MAX, 9),
    ] {
        assert_eq!(number(&Order { start, ..GOOD }, 51), expected, "{start:#X}");
    }
}

/// Around the two registers and the wrap, every short run in both directions.
#[test]
fn single_instruction_configures_only_last() {
    let data = [0; 6];
    let starts = (0x0000..=0x0008).chain(0x7FF8..=0x7FFF);
    for start in starts {
        for (count, settings, direction) in
            (1..=6).flat_map(|k| (0..8).flat_map(move |s| [(k, s, 0), (k, s, 1)]))
        {
            let step = if settings & 2 != 0 { 1 } else { 0x7FFF };
            let early = (0..count - 1).any(|i| (start + i * step) % 0x8000 < 2);
            let expected = if settings & 4 != 0 && direction == 0 && early { 10 } else { 0 };
            let data = if direction == 0 { &data[..count as usize] } else { &[] };
            let order = Order { direction, settings, start, count, data };
            assert_eq!(number(&order, 1_000), expected, "{order:?}");
        }
    }
    // By the address alone, also where the byte would do nothing there.
    for v in [0x00, 0x40, 0x42] {
        let order = Order { direction: 0, settings: 4, start: 0x0000, count: 2, data: &[v, 0] };
        assert_eq!(number(&order, 1_000), 10, "{v:#04X}");
    }
    // Far along a long run too, but not as its last byte.
    let long = [0; 1_000];
    for (start, expected) in [(998, 10), (999, 10), (1_000, 0), (1_001, 0)] {
        let order = Order { direction: 0, settings: 4, start, count: 1_000, data: &long };
        assert_eq!(number(&order, 48_003), expected, "{start}");
    }
}

#[test]
fn the_room_that_is_needed_is_exact() {
    let data = [0xC5; 1_000];
    for k in 1..=1_000 {
        for (settings, length) in [(0, 35 + 16 * k), (4, 3 + 48 * k)] {
            for direction in [0, 1] {
                let data = if direction == 0 { &data[..k] } else { &[] };
                let order = Order { direction, settings, start: 0x4000, count: k as u64, data };
                assert_eq!(number(&order, length - 1), 11);
                let mut outgoing = vec![0xEE; length + 3];
                let answer = send(&order, &mut outgoing);
                assert_eq!(answer, Answer { number: 0, count: length });
                assert_eq!(outgoing[length..], [0xEE; 3], "the rest is unchanged");
                assert_eq!(outgoing[length - 1], 0x01);
            }
        }
    }
}

/// An order that nothing refuses.
fn any_order<'a>(random: &mut Random, data: &'a [u8]) -> Order<'a> {
    loop {
        let direction = random.below(2) as u64;
        let count = match random.below(8) {
            0 => random.between(1, 1_000),
            _ => random.between(1, 9),
        };
        let start = random.pick(&[0x0000, 0x000F, 0x0014, 0x7FFF, 0x7FF8]) ^ random.below(8);
        let order = Order {
            direction,
            settings: random.below(8) as u64,
            start: start as u64,
            count: count as u64,
            data: if direction == 0 { &data[..count] } else { &[] },
        };
        if send(&order, &mut [0; 48_003]).number == 0 {
            return order;
        }
    }
}

/// The addresses of an order, one for each byte.
fn addresses(order: &Order) -> Vec<u64> {
    let step = if order.settings & 2 != 0 { 1 } else { 0x7FFF };
    (0..order.count).map(|i| (order.start + i * step) % 0x8000).collect()
}

/// The bits of an order as text, instruction and data, in the order of time.
fn bits_of(order: &Order) -> String {
    let in_time = |bits: String| match order.settings & 1 {
        0 => bits,
        _ => bits.chars().rev().collect(),
    };
    let mut text = String::new();
    for (i, address) in addresses(order).into_iter().enumerate() {
        if i == 0 || order.settings & 4 != 0 {
            text += &in_time(format!("{}{address:015b}", order.direction));
        }
        text += &in_time(format!("{:08b}", order.data.get(i).unwrap_or(&0)));
    }
    text
}

#[test]
fn samples_are_the_bits_one_by_one() {
    let mut random = Random::new(3);
    for _ in 0..3_000 {
        let data = random.bytes(1_000);
        let order = any_order(&mut random, &data);
        let mut expected = vec![0x00];
        for bit in bits_of(&order).bytes() {
            let b = bit - b'0';
            expected.extend([4 * b, 4 * b + 2]);
        }
        expected.extend([0x00, 0x01]);
        assert_eq!(sent(&order), expected, "{order:?}");
    }
}

#[test]
fn reading_the_samples_back_gives_the_order() {
    let mut random = Random::new(4);
    for _ in 0..3_000 {
        let data = random.bytes(1_000);
        let order = any_order(&mut random, &data);
        let count = random.between(16, 40);
        let mut chip = Chip::opened(&good_map(&mut random, count));
        chip.session.settings = settings_of(order.settings);
        let lines = chip.read(&sent(&order));

        assert_eq!(lines.len() as u64, order.count, "{order:?}");
        for (i, (line, address)) in lines.iter().zip(addresses(&order)).enumerate() {
            match order.direction {
                0 => {
                    let start = format!("W {address:04X} {:02X} ", order.data[i]);
                    assert!(line.starts_with(&start), "{line} for {start}");
                }
                // A read goes out as zeros, and so they are on the line.
                _ => {
                    assert!(line.starts_with(&format!("R {address:04X} ")), "{line}");
                    assert_eq!(&line[10..12], "00");
                }
            }
        }
        let settings = chip.session.settings;
        assert_eq!(chip.session, Session { settings, ..Session::opened() }, "at rest again");
    }
}
