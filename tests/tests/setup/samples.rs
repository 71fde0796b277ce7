//! Too many samples, too little room, and the order of all numbers.

use couplingnut_tests::generate::random::Random;
use couplingnut_tests::generate::setups::{
    good_order, good_setup, list_of, samples_of, setup_with, Listed, Slip,
};

use super::{number, recorded, ROOMY};

/// So many bytes shared out over so many reads.
fn reads(orders: u16, bytes: u16) -> Vec<Listed> {
    let share = |i| bytes / orders + u16::from(i < bytes % orders);
    (0..orders).map(|i| Listed::read(0x0100, share(i))).collect()
}

/// Streaming, 16 orders of 4,061 bytes take 16 x 35 + 16 x 4,061 samples, and 11 of
/// 4,072 take 11 x 35 + 16 x 4,072. Single instruction takes a multiple of 3.
#[test]
fn as_many_samples_as_a_recording_has_pass() {
    for (settings, orders, bytes, total) in [
        (0, 16, 4_061, 65_536),
        (3, 32, 4_026, 65_536),
        (0, 11, 4_072, 65_537),
        (2, 16, 4_062, 65_552),
        (4, 5, 1_365, 65_535),
        (7, 6, 1_365, 65_538),
        (6, 64, 64_000, 3_072_192),
    ] {
        let listed = reads(orders, bytes);
        assert_eq!(samples_of(settings, &listed), total);
        let list = list_of(&listed);
        let made = recorded(settings, &list, 70_000).map(|samples| samples.len());
        assert_eq!(made, if total <= 65_536 { Ok(total) } else { Err(15) }, "{total}");
        // 15 comes before 11, and 11 is given without it.
        for room in [0, 1, 65_534] {
            let expected = if total <= 65_536 { 11 } else { 15 };
            assert_eq!(recorded(settings, &list, room), Err(expected), "{total} in {room}");
        }
    }
}

/// 15 comes "after every order has passed".
#[test]
fn a_bad_order_comes_before_too_many_samples() {
    let mut orders = reads(16, 16_000);
    assert_eq!(number(4, &list_of(&orders)), 15);
    for (bad, expected) in [
        (Listed { direction: 9, ..Listed::read(0x0010, 1) }, 7),
        (Listed::read(0x0010, 0), 8),
        (Listed::read(0xFFFF, 1), 9),
        (Listed::write(0x0001, &[0, 0]), 10),
    ] {
        orders.push(bad);
        for room in [0, 51, ROOMY] {
            assert_eq!(recorded(4, &list_of(&orders), room), Err(expected));
        }
        orders.pop();
    }
}

#[test]
fn the_room_that_is_needed_is_exact() {
    let mut random = Random::new(2);
    for _ in 0..1_000 {
        let (settings, orders) = good_setup(&mut random);
        let (list, due) = (list_of(&orders), samples_of(settings, &orders));
        for room in [due, due + 1, due + 50] {
            assert_eq!(recorded(settings, &list, room).map(|samples| samples.len()), Ok(due));
        }
        if due > 0 {
            let last = samples_of(settings, &orders[orders.len() - 1..]);
            for room in [0, due - last, due - last / 2, due - 1] {
                assert_eq!(recorded(settings, &list, room), Err(11), "{room} of {due}");
            }
        }
    }
}

/// Every pair of slips, in a list long enough to have both: 14 first, then the
/// orders' numbers, then 15, then 11.
#[test]
fn the_numbers_have_their_order() {
    let place = |number: u8| [14, 7, 8, 9, 10, 15, 11].iter().position(|&n| n == number);
    let mut random = Random::new(3);
    for slip in Slip::ALL {
        for other in Slip::ALL {
            for _ in 0..20 {
                let orders = (0..3).map(|_| good_order(&mut random, 4, 5)).collect();
                let setup = setup_with(&mut random, 4, orders, &[slip, other]);
                let found = recorded(setup.settings, &setup.list, setup.room).err();
                let numbers = [slip.number(), other.number()];
                // Two bad orders have the number of the one that comes first.
                let of_orders = numbers.iter().all(|number| (7..=10).contains(number));
                let expected = numbers.into_iter().min_by_key(|&number| place(number));
                let agrees =
                    if of_orders { numbers.map(Some).contains(&found) } else { found == expected };
                assert!(agrees, "{slip:?} and {other:?} gave {found:?}: {setup:X?}");
            }
        }
    }
}
