//! The numbers of the orders, 7 to 10: which one, and whose.

use couplingnut_tests::generate::setups::{list_of, Listed};

use super::{number, short_orders};

/// Each number of an order, alone in any place, and what is first in the list.
#[test]
fn the_first_bad_order_gives_the_number() {
    let bad = [
        (7, Listed { direction: 2, ..Listed::write(0x0010, &[1]) }),
        (8, Listed { count: 2, ..Listed::write(0x0010, &[1]) }),
        (9, Listed::write(0x8000, &[1])),
        (10, Listed::write(0x0001, &[1, 2])),
    ];
    for settings in [4, 5, 6, 7] {
        for (first, order) in &bad {
            for at in [0, 1, 5, 63] {
                let mut orders = short_orders(64);
                orders[at] = order.clone();
                assert_eq!(number(settings, &list_of(&orders)), *first);
                for (_, other) in &bad {
                    for after in at + 1..64 {
                        let mut orders = orders.clone();
                        orders[after] = other.clone();
                        assert_eq!(number(settings, &list_of(&orders)), *first, "{other:X?}");
                    }
                }
            }
        }
    }
}

/// Inside one order the lowest number counts.
#[test]
fn an_order_with_several_faults_has_its_lowest_number() {
    for broken in 0u8..16 {
        let breaks = |number: u8| broken >> (number - 7) & 1 == 1;
        let low = if breaks(10) { 0x0001 } else { 0x0003 };
        let order = Listed {
            direction: if breaks(7) { 3 } else { 0 },
            start: if breaks(9) { 0x8000 | low } else { low },
            count: 2,
            data: if breaks(8) { vec![1, 2, 3] } else { vec![1, 2] },
        };
        let lowest = (7..=10).find(|&number| breaks(number) && !(number == 10 && breaks(9)));
        let list = list_of(&[Listed::read(0x0010, 1), order]);
        assert_eq!(number(4, &list), lowest.unwrap_or(0), "{broken:04b}");
    }
}

/// A settings number above 7 is the first order's 7, whatever else that order has;
/// the form comes before it.
#[test]
fn a_settings_number_above_7_is_the_first_orders() {
    let worse = Listed { count: 9, ..Listed::write(0x8000, &[1]) };
    for settings in [8, 9, 12, 15, 255, 256, 1 << 32, (1 << 32) + 4, u64::MAX] {
        for orders in [short_orders(1), vec![worse.clone()], vec![worse.clone(); 64]] {
            assert_eq!(number(settings, &list_of(&orders)), 7);
            let cut = [list_of(&orders), vec![0]].concat();
            assert_eq!(number(settings, &cut), 14);
        }
        assert_eq!(number(settings, &list_of(&short_orders(65))), 14);
    }
}

/// A length that has room for an order, but not for its data, is no matter of form.
#[test]
fn count_and_data_have_to_agree() {
    let data = [0x5A; 1_001];
    for (direction, count, length, expected) in [
        (0, 0, 0, 8),
        (0, 1, 0, 8),
        (0, 1, 1, 0),
        (0, 1, 2, 8),
        (0, 2, 1, 8),
        (0, 257, 1, 8),
        (0, 256, 256, 0),
        (0, 1_000, 1_000, 0),
        (0, 1_000, 999, 8),
        (0, 1_001, 1_001, 8),
        (0, 0xFFFF, 1, 8),
        (1, 0, 0, 8),
        (1, 1, 0, 0),
        (1, 1, 1, 8),
        (1, 1_000, 0, 0),
        (1, 1_001, 0, 8),
        (1, 0x8001, 0, 8),
        (1, 0xFFFF, 0, 8),
    ] {
        let order = Listed { direction, start: 0x7000, count, data: data[..length].to_vec() };
        for settings in [0, 4] {
            assert_eq!(number(settings, &order.bytes()), expected, "{direction} {count} {length}");
        }
    }
}

#[test]
fn directions_and_starts_have_their_bounds() {
    for direction in 0..=255 {
        let order = Listed { direction, ..Listed::read(0x0010, 1) };
        let expected = match direction {
            0 => 8,
            1 => 0,
            _ => 7,
        };
        assert_eq!(number(0, &order.bytes()), expected, "direction {direction}");
    }
    for (start, expected) in [(0x0000, 0), (0x7FFF, 0), (0x8000, 9), (0x800A, 9), (0xFFFF, 9)] {
        for settings in 0..=7 {
            assert_eq!(number(settings, &Listed::write(start, &[1]).bytes()), expected);
            assert_eq!(number(settings, &Listed::read(start, 1).bytes()), expected);
        }
    }
}

/// Number 10 asks for 0x0000 or 0x0001 before the last byte of one order: the
/// last byte of an order that is not the list's last is none of it.
#[test]
fn single_instruction_configures_only_last_in_each_order() {
    let configuring = Listed::write(0x0001, &[0x80]);
    assert_eq!(number(4, &list_of(&[configuring.clone(), configuring])), 0);
    for (start, settings, expected) in
        [(0x0001, 4, 10), (0x0001, 0, 0), (0x0002, 4, 0), (0x0000, 6, 10), (0x7FFF, 6, 0)]
    {
        let list = list_of(&[Listed::read(0x0000, 2), Listed::write(start, &[0, 0])]);
        assert_eq!(number(settings, &list), expected, "{start:#06X} with {settings}");
    }
}
